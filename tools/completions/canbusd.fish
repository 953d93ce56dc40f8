# Completions of canbusd and candump2bench for fish. `scripts/words` writes the lists.

# The file with faults after the `@` of a bus.
function __canbusd_scripts
    set -l parts (string split --max 1 @ -- (commandline --current-token --cut-at-cursor))
    if set --query parts[2]
        for file in (__fish_complete_path $parts[2])
            echo $parts[1]@$file
        end
    end
end

complete -c canbusd --no-files
complete -c canbusd -l help -d "Show the help"
# words: fish
set -l commands serve bench audit bits dump send status watch fault restart down up restbus convert extcap sweep report replay
set -l first "not __fish_seen_subcommand_from $commands help"
complete -c canbusd -n $first -a serve -d 'serve buses to clients'
complete -c canbusd -n $first -a bench -d 'run a script of sessions and attempts, the same at each run'
complete -c canbusd -n $first -a audit -d 'check a record'
complete -c canbusd -n $first -a bits -d 'print the bits of a frame on the wire'
complete -c canbusd -n $first -a dump -d 'print frames as they come'
complete -c canbusd -n $first -a send -d 'send frames'
complete -c canbusd -n $first -a status -d 'print the state and the counts of interfaces'
complete -c canbusd -n $first -a watch -d 'show a running server in the browser'
complete -c canbusd -n $first -a fault -d 'give a running bus a rule of faults'
complete -c canbusd -n $first -a restart -d 'bring interfaces back from bus off'
complete -c canbusd -n $first -a down -d 'take interfaces off the bus'
complete -c canbusd -n $first -a up -d 'bring interfaces up'
complete -c canbusd -n $first -a restbus -d 'send the messages of the other nodes of a DBC file'
complete -c canbusd -n $first -a convert -d 'make an ASC, BLF, pcapng or candump log of another'
complete -c canbusd -n $first -a extcap -d 'show the interfaces of a server in Wireshark'
complete -c canbusd -n $first -a sweep -d 'run a command with a fault at each attempt'
complete -c canbusd -n $first -a report -d 'show the run of a record as a page, or as text'
complete -c canbusd -n $first -a replay -d 'replay a record, and list its events'
complete -c canbusd -n "__fish_seen_subcommand_from audit restbus convert sweep report replay" -F
complete -c canbusd -n "__fish_seen_subcommand_from bench serve" -x -a "always peers" -l ack -d 'Frames are acknowledged by a silent node (always), or only by the other interfaces (peers)'
complete -c canbusd -n "__fish_seen_subcommand_from bench serve" -f -l report -d 'Make error message frames of each fault too, not only of changes of state'
complete -c canbusd -n "__fish_seen_subcommand_from bench serve" -x -l txqueue -d 'Frames that an interface keeps to be sent, 1 to 1024'
complete -c canbusd -n "__fish_seen_subcommand_from bench serve" -x -l rxqueue -d 'Frames that a socket keeps to be received, 1 to 65536'
complete -c canbusd -n "__fish_seen_subcommand_from bench serve" -x -l limit -d 'Calls and attempts of the run, 1 to 16777216, of 32 bytes of memory each, 108 with an FD frame'
complete -c canbusd -n "__fish_seen_subcommand_from bench serve" -x -l auto-restart -d 'Restart an interface in the Nth attempt after it went bus off, 1 to 1000000, or never (0)'
complete -c canbusd -n "__fish_seen_subcommand_from bench serve" -x -l bitrate -d 'Bits a second, 5000 to 1000000: attempts take the time of their bits'
complete -c canbusd -n "__fish_seen_subcommand_from audit" -x -l bitrate -d 'Bits a second, 5000 to 1000000: write how long each attempt is on the wire'
complete -c canbusd -n "__fish_seen_subcommand_from bits" -x -l bitrate -d 'Bits a second, 5000 to 1000000: write how long the frame is on the wire'
complete -c canbusd -n "__fish_seen_subcommand_from bench serve audit" -x -l dbitrate -d 'Bits a second of the data phase of FD frames, to 20000000'
complete -c canbusd -n "__fish_seen_subcommand_from bits" -x -l dbitrate -d 'Bits a second of the data phase of FD frames, to 20000000'
complete -c canbusd -n "__fish_seen_subcommand_from audit" -f -l cut -d 'Audit a record that is cut off, as far as it reaches'
complete -c canbusd -n "__fish_seen_subcommand_from audit" -f -l events -d 'Write each legal entry with its effects'
complete -c canbusd -n "__fish_seen_subcommand_from audit" -x -a "(__canbusd_scripts)" -l faults -d 'Names and script of faults of the run: write which rule gave each attempt its verdict'
complete -c canbusd -n "__fish_seen_subcommand_from bench" -r -F -l record -d 'Write the record of the run to FILE once the input has ended'
complete -c canbusd -n "__fish_seen_subcommand_from bench" -r -F -l log -d 'Write the frames of the run to FILE once the input has ended, as candump logs them'
complete -c canbusd -n "__fish_seen_subcommand_from bench" -f -l strict -d 'End with status 1 if a message of a session was refused'
complete -c canbusd -n "__fish_seen_subcommand_from bench" -f -l show-faults -d 'End the lines of attempts with their faults, and the rules that gave them'
complete -c canbusd -n "__fish_seen_subcommand_from serve" -r -F -l listen -d 'Host and port, or a Unix path that begins with / or .'
complete -c canbusd -n "__fish_seen_subcommand_from serve" -x -l sessions -d 'Sessions to serve'
complete -c canbusd -n "__fish_seen_subcommand_from serve" -x -l pace -d 'Milliseconds after each attempt of a bus without --bitrate, 0 to 60000'
complete -c canbusd -n "__fish_seen_subcommand_from serve" -x -l write -d 'Most bytes of frames in one write to a client, 256 to 65536'
complete -c canbusd -n "__fish_seen_subcommand_from serve" -x -a "(__fish_complete_directories)" -l out -d 'Write the log and the record of each bus into DIR'
complete -c canbusd -n "__fish_seen_subcommand_from serve" -x -a "end live none" -l record -d 'When records are written: at the end, live, or none'
complete -c canbusd -n "__fish_seen_subcommand_from serve" -x -l flush -d 'Milliseconds that live output may wait, 0 to 60000'
complete -c canbusd -n "__fish_seen_subcommand_from serve" -f -l sync -d 'Wait each time until live output is on the disk'
complete -c canbusd -n "__fish_seen_subcommand_from serve" -f -l until-eof -d 'End the run when standard input ends'
complete -c canbusd -n "__fish_seen_subcommand_from serve" -f -l verbose -d 'Report each client and each bus off in a line on standard error'
complete -c canbusd -n "__fish_seen_subcommand_from dump" -r -F -l pcapng -d 'write a capture for Wireshark'
complete -c canbusd -n "__fish_seen_subcommand_from dump" -r -F -l dbc -d 'names of messages and signals'
complete -c canbusd -n "__fish_seen_subcommand_from extcap" -f -l install -d 'install it for this user'
complete -c canbusd -n "__fish_seen_subcommand_from dump extcap" -r -F -l address -d 'HOST:PORT of the server, or its Unix path'
# end of words
complete -c canbusd -n $first -a help -d "show the help of a command"
complete -c canbusd -n $first -l version -d "Show the version"
complete -c canbusd -n "__fish_seen_subcommand_from help" -a "$commands"
complete -c canbusd -n "__fish_seen_subcommand_from bench serve" -a "(__canbusd_scripts)"

# candump2bench: the options in its help, and files.
complete -c candump2bench -n "string match --quiet -- '-*' (commandline --current-token)" \
    -a "(candump2bench --help | string match --all --regex -- '--[a-z-]+' | sort --unique)"
