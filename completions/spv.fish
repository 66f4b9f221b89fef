# Completion of spv's command line in fish. Put it where fish looks, as ~/.config/fish/completions/spv.fish.

# The codes that the program knows.
function __spv_codes
    command -q spv; and spv rules 2>/dev/null | string replace -r ':.*' ''
end

complete -c spv -f

complete -c spv -n 'not __fish_seen_subcommand_from help' -s h -l help -d 'Print help'
complete -c spv -n __fish_use_subcommand -s V -l version -d 'Print the version'

complete -c spv -n __fish_use_subcommand -a check -d 'Write the verdict on modules'
complete -c spv -n __fish_use_subcommand -a explain -d 'Write the verdict on modules and what explains it'
complete -c spv -n __fish_use_subcommand -a show -d 'Write the text of a module'
complete -c spv -n __fish_use_subcommand -a annotate -d 'Write the text of a module for people, with comments'
complete -c spv -n __fish_use_subcommand -a graph -d 'Write calls, or the blocks of a function, as a picture in DOT'
complete -c spv -n __fish_use_subcommand -a asm -d 'Make the module of a text'
complete -c spv -n __fish_use_subcommand -a trace -d "Write the run of an entry point's function"
complete -c spv -n __fish_use_subcommand -a rules -d 'Write what each code of a verdict or an error says'
complete -c spv -n __fish_use_subcommand -a grammar -d 'Write the built-in grammar, or that of a file, as a grammar file'
complete -c spv -n __fish_use_subcommand -a help -d 'Print help on a command'

complete -c spv -n '__fish_seen_subcommand_from check' -F
complete -c spv -n '__fish_seen_subcommand_from check' -l grammar -r -F -d 'A grammar file, in JSON'
complete -c spv -n '__fish_seen_subcommand_from check' -l as-1.6 -d 'Take a module of version 1.0 to 1.5 as one of 1.6'
complete -c spv -n '__fish_seen_subcommand_from check' -l extended -d 'Look at ids of extended instructions too'
complete -c spv -n '__fish_seen_subcommand_from check' -l json -d 'Write a JSON object a line'
complete -c spv -n '__fish_seen_subcommand_from check' -s H -l with-filename -d 'Write the name of a single file too'
complete -c spv -n '__fish_seen_subcommand_from check' -l no-filename -d 'Write no names before verdicts'
complete -c spv -n '__fish_seen_subcommand_from check' -l quiet -d 'Write no verdict'
complete -c spv -n '__fish_seen_subcommand_from check' -l opencl -d 'Take what a kernel of OpenCL can be, of version 1.0 to 1.6'
complete -c spv -n '__fish_seen_subcommand_from check' -l verbose -d 'Say after the line of an error what is wrong'

complete -c spv -n '__fish_seen_subcommand_from explain' -F
complete -c spv -n '__fish_seen_subcommand_from explain' -l grammar -r -F -d 'A grammar file, in JSON'
complete -c spv -n '__fish_seen_subcommand_from explain' -l as-1.6 -d 'Take a module of version 1.0 to 1.5 as one of 1.6'
complete -c spv -n '__fish_seen_subcommand_from explain' -l extended -d 'Look at ids of extended instructions too'
complete -c spv -n '__fish_seen_subcommand_from explain' -l full -d 'Name every opcode that may come'
complete -c spv -n '__fish_seen_subcommand_from explain' -l json -d 'Write a JSON object a line'
complete -c spv -n '__fish_seen_subcommand_from explain' -s H -l with-filename -d 'Write the name of a single file too'
complete -c spv -n '__fish_seen_subcommand_from explain' -l no-filename -d 'Write no names before verdicts'
complete -c spv -n '__fish_seen_subcommand_from explain' -l quiet -d 'Write no verdict'
complete -c spv -n '__fish_seen_subcommand_from explain' -l opencl -d 'Take what a kernel of OpenCL can be, of version 1.0 to 1.6'
complete -c spv -n '__fish_seen_subcommand_from explain' -l verbose -d 'Say after the line of an error what is wrong'

complete -c spv -n '__fish_seen_subcommand_from show' -F
complete -c spv -n '__fish_seen_subcommand_from show' -l grammar -r -F -d 'A grammar file, in JSON'
complete -c spv -n '__fish_seen_subcommand_from show' -l as-1.6 -d 'Take a module of version 1.0 to 1.5 as one of 1.6'
complete -c spv -n '__fish_seen_subcommand_from show' -l opencl -d 'Take a module of version 1.0 to 1.6 as it is'
complete -c spv -n '__fish_seen_subcommand_from show' -l verbose -d 'Say after the line of an error what is wrong'

complete -c spv -n '__fish_seen_subcommand_from annotate' -F
complete -c spv -n '__fish_seen_subcommand_from annotate' -l color -x -a 'auto always never' -d 'Comments in colour'
complete -c spv -n '__fish_seen_subcommand_from annotate' -l function -x -d 'The id or the name of a function'
complete -c spv -n '__fish_seen_subcommand_from annotate' -l grammar -r -F -d 'A grammar file, in JSON'
complete -c spv -n '__fish_seen_subcommand_from annotate' -l as-1.6 -d 'Take a module of version 1.0 to 1.5 as one of 1.6'
complete -c spv -n '__fish_seen_subcommand_from annotate' -l html -d 'Write one HTML page'
complete -c spv -n '__fish_seen_subcommand_from annotate' -l opencl -d 'Take what a kernel of OpenCL can be, of version 1.0 to 1.6'
complete -c spv -n '__fish_seen_subcommand_from annotate' -l verbose -d 'Say after the line of an error what is wrong'

complete -c spv -n '__fish_seen_subcommand_from graph' -F
complete -c spv -n '__fish_seen_subcommand_from graph' -l function -x -d 'The id or the name of a function'
complete -c spv -n '__fish_seen_subcommand_from graph' -l grammar -r -F -d 'A grammar file, in JSON'
complete -c spv -n '__fish_seen_subcommand_from graph' -l as-1.6 -d 'Take a module of version 1.0 to 1.5 as one of 1.6'
complete -c spv -n '__fish_seen_subcommand_from graph' -l opencl -d 'Take what a kernel of OpenCL can be, of version 1.0 to 1.6'
complete -c spv -n '__fish_seen_subcommand_from graph' -l verbose -d 'Say after the line of an error what is wrong'

complete -c spv -n '__fish_seen_subcommand_from asm' -F
complete -c spv -n '__fish_seen_subcommand_from asm' -l big -d 'The highest byte of a word stands first'
complete -c spv -n '__fish_seen_subcommand_from asm' -l explain -d 'Say after a fault of the text what is wrong'
complete -c spv -n '__fish_seen_subcommand_from asm' -l grammar -r -F -d 'A grammar file, in JSON'
complete -c spv -n '__fish_seen_subcommand_from asm' -l opencl -d 'Take a text of version 1.0 to 1.6'
complete -c spv -n '__fish_seen_subcommand_from asm' -l verbose -d 'Say after the line of an error what is wrong'
complete -c spv -n '__fish_seen_subcommand_from asm' -l out -r -F -d 'The module that is made'

complete -c spv -n '__fish_seen_subcommand_from trace' -F
complete -c spv -n '__fish_seen_subcommand_from trace' -l choices -x -d 'The targets that are taken, from 0, as 0,1'
complete -c spv -n '__fish_seen_subcommand_from trace' -l function -x -d "The id or the name of an entry point's function"
complete -c spv -n '__fish_seen_subcommand_from trace' -l grammar -r -F -d 'A grammar file, in JSON'
complete -c spv -n '__fish_seen_subcommand_from trace' -l as-1.6 -d 'Take a module of version 1.0 to 1.5 as one of 1.6'
complete -c spv -n '__fish_seen_subcommand_from trace' -l extended -d 'Look at ids of extended instructions too'
complete -c spv -n '__fish_seen_subcommand_from trace' -l opencl -d 'Take what a kernel of OpenCL can be, of version 1.0 to 1.6'
complete -c spv -n '__fish_seen_subcommand_from trace' -l verbose -d 'Say after the line of an error what is wrong'
complete -c spv -n '__fish_seen_subcommand_from trace' -l limit -x -d 'The greatest number of steps'

complete -c spv -n '__fish_seen_subcommand_from rules' -a '(__spv_codes)'
complete -c spv -n '__fish_seen_subcommand_from rules' -l json -d 'Write a JSON object a line'
complete -c spv -n '__fish_seen_subcommand_from rules' -l verbose -d 'Say after the line of an error what is wrong'

complete -c spv -n '__fish_seen_subcommand_from grammar' -F
complete -c spv -n '__fish_seen_subcommand_from grammar' -l verbose -d 'Say after the line of an error what is wrong'

complete -c spv -n '__fish_seen_subcommand_from help' -a 'check explain show annotate graph asm trace rules grammar help'
