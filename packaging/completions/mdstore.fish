# Completions of mdstore for fish. tests/words compares them with the help that the program prints.

# Whether the command that was typed is one of these.
function __mdstore_command
    set -l typed (commandline -opc)
    test (count $typed) -gt 1; and contains -- $typed[2] $argv
end

# Files are completed where a command takes one alone.
complete -c mdstore -f
complete -c mdstore -n __fish_is_first_token -s h -l help -d 'Print help'
complete -c mdstore -n __fish_is_first_token -s V -l version -d 'Print version'

complete -c mdstore -n '__fish_is_first_token; or __mdstore_command help' -a check -d 'Checks a file, and prints a line for each day or accumulation'
complete -c mdstore -n '__fish_is_first_token; or __mdstore_command help' -a init -d 'Makes a store in a new file'
complete -c mdstore -n '__fish_is_first_token; or __mdstore_command help' -a migrate -d 'Migrates a store of an earlier schema to that of this version'
complete -c mdstore -n '__fish_is_first_token; or __mdstore_command help' -a import -d 'Adds the data of files to a store'
complete -c mdstore -n '__fish_is_first_token; or __mdstore_command help' -a substitute -d 'Fills in readings of a day by a substitution job, and keeps the job'
complete -c mdstore -n '__fish_is_first_token; or __mdstore_command help' -a holidays -d 'Lists days as holidays'
complete -c mdstore -n '__fish_is_first_token; or __mdstore_command help' -a streams -d 'Prints the known streams with the details of their meters, as JSON'
complete -c mdstore -n '__fish_is_first_token; or __mdstore_command help' -a day -d 'Prints the current readings of a day, as JSON'
complete -c mdstore -n '__fish_is_first_token; or __mdstore_command help' -a versions -d 'Prints all versions of an interval of a day, as JSON'
complete -c mdstore -n '__fish_is_first_token; or __mdstore_command help' -a periods -d 'Prints all accumulations of a stream, as JSON'
complete -c mdstore -n '__fish_is_first_token; or __mdstore_command help' -a gaps -d 'Prints the gaps of a stream in a range of days, as a CSV file'
complete -c mdstore -n '__fish_is_first_token; or __mdstore_command help' -a finals -d 'Prints the final substitutions of a stream in a range of days, as a CSV file'
complete -c mdstore -n '__fish_is_first_token; or __mdstore_command help' -a missing -d 'Prints the gaps of all streams in a range of days, as a CSV file'
complete -c mdstore -n '__fish_is_first_token; or __mdstore_command help' -a readings -d 'Prints the current readings of a stream in a range of days, as a CSV file'
complete -c mdstore -n '__fish_is_first_token; or __mdstore_command help' -a export -d 'Prints the current readings of streams in a range of days, as a NEM12 file'
complete -c mdstore -n '__fish_is_first_token; or __mdstore_command help' -a serve -d 'Answers requests over HTTP on 127.0.0.1, one connection after the other'
complete -c mdstore -n '__fish_is_first_token; or __mdstore_command help' -a explain -d 'Explains a printed code, or all of them'
complete -c mdstore -n '__fish_is_first_token; or __mdstore_command help' -a help -d 'Print this message or the help of the given subcommand(s)'

complete -c mdstore -n '__mdstore_command check init migrate import substitute holidays streams day versions periods gaps finals missing readings export serve explain' -s h -l help -d 'Print help'
complete -c mdstore -n '__mdstore_command init migrate import substitute holidays streams day versions periods gaps finals missing readings export serve' -l store -r -F -d 'The file of the store'
complete -c mdstore -n '__mdstore_command init' -l sums -d 'Gives each page of the file a sum, so that changed bytes are found'
complete -c mdstore -n '__mdstore_command check import' -l kind -x -a 'nem12 nem13' -d 'The kind of file: interval data, or accumulations'
complete -c mdstore -n '__mdstore_command missing' -l since -x -d 'Leaves out streams whose last known day is before this day, CCYYMMDD'
complete -c mdstore -n '__mdstore_command serve' -l port -x -d 'The port'
complete -c mdstore -n '__mdstore_command serve' -l count -x -d 'After how many connections it ends'
complete -c mdstore -n '__mdstore_command serve' -l log -d 'Prints a line for each connection on standard error'
complete -c mdstore -n '__mdstore_command check init migrate import substitute holidays streams day versions periods gaps finals missing readings export serve' -l why -d 'Prints on standard error why something is refused'
complete -c mdstore -n '__mdstore_command check import substitute holidays' -F
