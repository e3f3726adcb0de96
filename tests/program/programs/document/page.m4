Title({Frozen states & their uses})dnl
Contents{}dnl
Section({Why a state is frozen})
Paragraph({A build reads its macros again and again.Note({Some builds read thousands of lines.}) A frozen
state is read once, and Code({m4 -R state.m4f}) starts from it.})
List({a library is read once,}, {each page starts from it,}, {and both give the same.Note({This is what
See({How it is done}) is about.})})
Section({How it is done})
Subsection({Freezing})
Numbered({write a library;}, {run Code({m4 -F state.m4f library.m4});}, {keep what it made.})
Subsection({Reloading})
Paragraph({{See} See({Why a state is frozen}). In a page Code({a < b && b > c}) is shown as it is.})
Section({What is left?})
Paragraph({Nothing.})
End
