# Completes the words of gihandop-keys in fish. tests/test_completion.py compares it with the help of each command.

# Tells whether the command is one of these.
function __gihandop_keys_is
    set -l words (commandline -opc)
    contains -- "$words[2]" $argv
end

# Tells whether the word of the cursor has one of these numbers, of which the first command has 1.
function __gihandop_keys_at
    contains -- (count (commandline -opc)) $argv
end

complete -c gihandop-keys -f
complete -c gihandop-keys -n '__gihandop_keys_at 1' -a 'new add list check remove from-bluez to-bluez'
complete -c gihandop-keys -l help

complete -c gihandop-keys -n '__gihandop_keys_is new' -l authenticated
complete -c gihandop-keys -n '__gihandop_keys_is new' -l secure
complete -c gihandop-keys -n '__gihandop_keys_is new' -l size -x
complete -c gihandop-keys -n '__gihandop_keys_is new from-bluez' -l add -r -F
complete -c gihandop-keys -n '__gihandop_keys_is new from-bluez to-bluez' -l output -r -F
complete -c gihandop-keys -n '__gihandop_keys_is remove to-bluez' -l entry -x
complete -c gihandop-keys -n '__gihandop_keys_is remove' -l all
complete -c gihandop-keys -n '__gihandop_keys_is from-bluez' -l role -x -a 'central peripheral'
complete -c gihandop-keys -n '__gihandop_keys_is to-bluez' -l device-kind -x -a 'public random'

complete -c gihandop-keys -n '__gihandop_keys_is add list check remove from-bluez to-bluez; and __gihandop_keys_at 2' -F
complete -c gihandop-keys -n '__gihandop_keys_is add; and __gihandop_keys_at 3' -F
complete -c gihandop-keys -n '__gihandop_keys_is new; and __gihandop_keys_at 3' -a 'public random'
complete -c gihandop-keys -n '__gihandop_keys_is remove from-bluez to-bluez; and __gihandop_keys_at 4' -a 'public random'
