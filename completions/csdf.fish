# Completion of csdf for fish: put this file into ~/.config/fish/completions. Made by completions/make.

# How many words stand before the one that is completed and are no options and no values of such.
function __csdf_place
    set -l words (commandline -opc)
    set -l place 0
    set -l is_value 0
    for word in $words[3..]
        if test $is_value = 1
            set is_value 0
        else if contains -- $word --workers --periods --firings --out --journal --room --segment --format
            set is_value 1
        else if not string match -qr -- '^-.' $word
            set place (math $place + 1)
        end
    end
    echo $place
end

# Whether this number of them stands there, behind one of these commands.
function __csdf_is_at
    set -l words (commandline -opc)
    contains -- "$words[2]" $argv[2..]
    and test (__csdf_place) = $argv[1]
end

set -l commands run stream moves check repetition schedule capacity dot explain help
complete -c csdf -n "not __fish_seen_subcommand_from $commands" -f -a run -d "Run a graph on token files"
complete -c csdf -n "not __fish_seen_subcommand_from $commands" -f -a stream -d "Run a graph on a stream of tokens of any length"
complete -c csdf -n "not __fish_seen_subcommand_from $commands" -f -a moves -d "Play the script of a graph file"
complete -c csdf -n "not __fish_seen_subcommand_from $commands" -f -a check -d "Tell whether a graph is consistent"
complete -c csdf -n "not __fish_seen_subcommand_from $commands" -f -a repetition -d "Print each actor's cycles and firings in a period"
complete -c csdf -n "not __fish_seen_subcommand_from $commands" -f -a schedule -d "Print the actor of each firing of a period"
complete -c csdf -n "not __fish_seen_subcommand_from $commands" -f -a capacity -d "Print the least channel capacities"
complete -c csdf -n "not __fish_seen_subcommand_from $commands" -f -a dot -d "Print the graph for Graphviz, which draws it"
complete -c csdf -n "not __fish_seen_subcommand_from $commands" -f -a explain -d "Tell why a graph is refused, or that it is accepted"
complete -c csdf -n "not __fish_seen_subcommand_from $commands" -f -a help -d "Print the help of the program or of a command"
complete -c csdf -n "not __fish_seen_subcommand_from $commands" -l help -d "Print help"
complete -c csdf -n "not __fish_seen_subcommand_from $commands" -l version -d "Print version"
complete -c csdf -n "__csdf_is_at 0 help" -f -a "run stream moves check repetition schedule capacity dot explain"
complete -c csdf -n "__csdf_is_at 1 help" -f
complete -c csdf -n "__csdf_is_at 0 run stream moves check repetition schedule capacity dot explain" -a - -d "The graph on standard input"
complete -c csdf -n "__csdf_is_at 1 run stream explain" -f -a "(__fish_complete_directories)"
complete -c csdf -n "__csdf_is_at 1 moves check repetition schedule capacity dot" -f
complete -c csdf -n "__csdf_is_at 2 run stream explain" -f
complete -c csdf -n "__fish_seen_subcommand_from run" -l workers -x -a "1 2 3 4 5 6 7 8 auto" -d "How many workers fire: 1 to 8, or auto; 1 where absent"
complete -c csdf -n "__fish_seen_subcommand_from run" -l periods -x -d "How many periods to run: 1 to 1000, 1 where absent"
complete -c csdf -n "__fish_seen_subcommand_from run" -l until-dry -d "Run until a source has run dry, in place of a number of periods"
complete -c csdf -n "__fish_seen_subcommand_from run" -l firings -x -d "The most firings of all actors: 0 to 1048576000, no limit where absent"
complete -c csdf -n "__fish_seen_subcommand_from run" -l out -x -a "(__fish_complete_directories)" -d "The folder that the sinks' files are written to: DIR where absent"
complete -c csdf -n "__fish_seen_subcommand_from run" -l journal -r -d "A file for the moves of the run, as the script of a graph file"
complete -c csdf -n "__fish_seen_subcommand_from run" -l progress -d "Tell on standard error how many firings were made"
complete -c csdf -n "__fish_seen_subcommand_from run" -l room -x -a "auto" -d "Room for so many periods: 1 to 65535, or auto; least capacities where absent"
complete -c csdf -n "__fish_seen_subcommand_from run" -l json -d "Print a JSON object on one line, for a fault too"
complete -c csdf -n "__fish_seen_subcommand_from run" -l help -d "Print help"
complete -c csdf -n "__fish_seen_subcommand_from stream" -l workers -x -a "1 2 3 4 5 6 7 8 auto" -d "How many workers fire: 1 to 8, or auto; 1 where absent"
complete -c csdf -n "__fish_seen_subcommand_from stream" -l room -x -a "auto" -d "Room for so many periods: 1 to 65535, or auto; auto where absent"
complete -c csdf -n "__fish_seen_subcommand_from stream" -l segment -x -d "How many periods a segment has: 1 to 4294967295, by the graph where absent"
complete -c csdf -n "__fish_seen_subcommand_from stream" -l periods -x -d "How many periods to run: 1 to 4294967295, until a source is dry where absent"
complete -c csdf -n "__fish_seen_subcommand_from stream" -l out -x -a "(__fish_complete_directories)" -d "The folder that the sinks' files are written to: DIR where absent"
complete -c csdf -n "__fish_seen_subcommand_from stream" -l format -x -a "text u8 s8 s16le s16be s32le s32be" -d "How tokens lie in bytes, text where absent"
complete -c csdf -n "__fish_seen_subcommand_from stream" -l progress -d "Tell on standard error how many firings were made"
complete -c csdf -n "__fish_seen_subcommand_from stream" -l json -d "Print a JSON object on one line, for a fault too"
complete -c csdf -n "__fish_seen_subcommand_from stream" -l help -d "Print help"
complete -c csdf -n "__fish_seen_subcommand_from moves" -l help -d "Print help"
complete -c csdf -n "__fish_seen_subcommand_from check" -l json -d "Print a JSON object on one line, for a fault too"
complete -c csdf -n "__fish_seen_subcommand_from check" -l help -d "Print help"
complete -c csdf -n "__fish_seen_subcommand_from repetition" -l json -d "Print a JSON object on one line, for a fault too"
complete -c csdf -n "__fish_seen_subcommand_from repetition" -l help -d "Print help"
complete -c csdf -n "__fish_seen_subcommand_from schedule" -l room -x -a "auto" -d "Room for so many periods: 1 to 65535, or auto; least capacities where absent"
complete -c csdf -n "__fish_seen_subcommand_from schedule" -l json -d "Print a JSON object on one line, for a fault too"
complete -c csdf -n "__fish_seen_subcommand_from schedule" -l help -d "Print help"
complete -c csdf -n "__fish_seen_subcommand_from capacity" -l room -x -a "auto" -d "Room for so many periods: 1 to 65535, or auto; least capacities where absent"
complete -c csdf -n "__fish_seen_subcommand_from capacity" -l json -d "Print a JSON object on one line, for a fault too"
complete -c csdf -n "__fish_seen_subcommand_from capacity" -l help -d "Print help"
complete -c csdf -n "__fish_seen_subcommand_from dot" -l room -x -a "auto" -d "Room for so many periods: 1 to 65535, or auto; least capacities where absent"
complete -c csdf -n "__fish_seen_subcommand_from dot" -l help -d "Print help"
complete -c csdf -n "__fish_seen_subcommand_from explain" -l help -d "Print help"
