# Completion of valflow's words in fish: put this file into ~/.config/fish/completions.
function __valflow_is_first
    test (count (commandline -opc)) -eq 1
end
complete -c valflow -f -n __valflow_is_first
complete -c valflow -n __valflow_is_first -a check -d 'Is a text a source that can be compiled?'
complete -c valflow -n __valflow_is_first -a eval -d 'What a source means under inputs'
complete -c valflow -n __valflow_is_first -a compile -d 'Write the cells of a source and their dual flow'
complete -c valflow -n __valflow_is_first -a go -d 'Compile a source and run its cells'
complete -c valflow -n __valflow_is_first -a run -d 'Run the cells of a file'
complete -c valflow -n __valflow_is_first -a trace -d 'Write a line for each event of a run'
complete -c valflow -n __valflow_is_first -a replay -d 'Do the events of a trace again'
complete -c valflow -n __valflow_is_first -a verify -d 'Are cells balanced with least buffers?'
complete -c valflow -n __valflow_is_first -a migrate -d 'Write cells of version 1 as version 2'
complete -c valflow -n __valflow_is_first -a lockstep -d 'Run the cells of a file in phases'
