machine([lamp])dnl
at([off])dnl
on([press], [on])dnl
at([on_state])dnl
on([press], [off])dnl
This line is written before the fault is found.
end_machine[]dnl
Nothing is read after the fault.
