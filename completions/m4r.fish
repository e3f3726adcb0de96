# Completion of m4r's options and files in fish. `tests/program/completions` compares the options with `m4r --help`.

# All files that begin with the word at the cursor, or with what is after the sign of --canon=FILE; the frozen ones and
# folders first.
function __m4r_frozen_files
    set -l word (commandline -ct | string replace -r -- '^--[a-z-]+=' '')
    set -l files (complete -C "__fish_command_without_completions $word")
    printf '%s\n' (string match -- '*.m4f' $files) (string match -- '*/' $files) $files
end

complete -c m4r -s F -l freeze-state -r -F -d 'Write the state at the end of the run to a file'
complete -c m4r -s R -l reload-state -x -ka '(__m4r_frozen_files)' -d 'Start from the state in a file'
complete -c m4r -s L -l nesting-limit -x -d 'Allow at most so many nested calls'
complete -c m4r -l expansions -x -d 'Allow at most so many calls in all'
complete -c m4r -s P -l prefix-builtins -d 'Prefix the names of the builtins with m4_'
complete -c m4r -l canon -x -ka '(__m4r_frozen_files)' -d 'Print the canonical text of a frozen file'
complete -c m4r -l inspect -x -ka '(__m4r_frozen_files)' -d 'List the contents of a frozen file'
complete -c m4r -l help -d 'Print a short help'
