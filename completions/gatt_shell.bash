# Completes the words of gatt_shell, hci_bridge and gihandop-keys in bash. Bash loads it by the name of the command,
# from share/bash-completion/completions. tests/test_completion.py compares it with the help of each command.

_gatt_shell() {
    local word=$2 before=$3 command=${COMP_WORDS[1]-} words
    COMPREPLY=()
    # --rows=FILE arrives as three words.
    if [[ $word == = ]]; then
        word=''
    elif [[ $before == = ]]; then
        before=${COMP_WORDS[COMP_CWORD - 2]}
    fi
    case $before in
    --state)
        compopt -o dirnames
        return
        ;;
    --rows | --next | --new-keys | --table | --capture | --serial | --application)
        compopt -o default
        return
        ;;
    --listen | --connect | --application-port | --name | --advertise | --address | --capture-size | --slots | \
        --idle | --stranger | --patience | --width | --rx-mtu)
        return
        ;;
    esac
    if ((COMP_CWORD == 1)); then
        words='att check show may compare expect run words serve host tell help --help --version'
    elif [[ $command == help ]]; then
        words='att check show may compare expect run words serve host tell help'
    elif [[ $word == -* ]]; then
        case $command in
        att) words='--words --help' ;;
        check | expect | tell) words='--help' ;;
        show) words='--rows --attributes --width --help' ;;
        may) words='--authorized --unencrypted --help' ;;
        compare) words='--new-keys --help' ;;
        serve) words='--rows --help' ;;
        run) words='--rows --next --rx-mtu --notices --echo --words --help' ;;
        words) words='--table --help' ;;
        host)
            words='--state --save-updates --rows --drop-unknown --listen --connect --serial --application
                --application-port --wait-for-application --name --advertise --address --capture --capture-size
                --log-values --log-refusals --slots --idle --stranger --patience --once --help'
            ;;
        *) return ;;
        esac
    elif [[ $command == tell ]] && ((COMP_CWORD == 3)); then
        words='update allow deny disconnect value connections subscriptions find application reload stop'
    else
        case $command:$COMP_CWORD in
        may:[23] | check:* | show:* | compare:* | expect:* | run:* | serve:* | host:* | tell:2) compopt -o default ;;
        esac
        return
    fi
    mapfile -t COMPREPLY < <(compgen -W "$words" -- "$word")
}

_hci_bridge() {
    local word=$2 before=$3 words=''
    COMPREPLY=()
    case $before in
    hci[0-9]*)
        compopt -o default
        return
        ;;
    --down) ;;
    *) words='--down' ;;
    esac
    if ((COMP_CWORD <= 2)); then
        words+=" $(compgen -G '/sys/class/bluetooth/hci*' | sed 's|.*/||; /:/d')"
    fi
    mapfile -t COMPREPLY < <(compgen -W "$words" -- "$word")
}

_gihandop_keys() {
    local word=$2 before=$3 command=${COMP_WORDS[1]-} words=''
    COMPREPLY=()
    if [[ $word == = ]]; then
        word=''
    elif [[ $before == = ]]; then
        before=${COMP_WORDS[COMP_CWORD - 2]}
    fi
    case $before in
    --add | --output)
        compopt -o default
        return
        ;;
    --size | --entry) return ;;
    --role) words='central peripheral' ;;
    --device-kind) words='public random' ;;
    *)
        if ((COMP_CWORD == 1)); then
            words='new add list check remove from-bluez to-bluez --help'
        elif [[ $word == -* ]]; then
            case $command in
            new) words='--authenticated --secure --size --add --output --help' ;;
            add | list | check) words='--help' ;;
            remove) words='--entry --all --help' ;;
            from-bluez) words='--role --add --output --help' ;;
            to-bluez) words='--entry --device-kind --output --help' ;;
            esac
        else
            case $command:$COMP_CWORD in
            add:[23] | list:2 | check:2 | remove:2 | from-bluez:2 | to-bluez:2) compopt -o default ;;
            new:3 | remove:4 | from-bluez:4 | to-bluez:4) words='public random' ;;
            esac
        fi
        ;;
    esac
    mapfile -t COMPREPLY < <(compgen -W "$words" -- "$word")
}

complete -F _gatt_shell gatt_shell
complete -F _hci_bridge hci_bridge
complete -F _gihandop_keys gihandop-keys
