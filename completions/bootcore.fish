# Completes bootcore's command line in fish. To use it, source this file, in
# ~/.config/fish/config.fish for example:
#   source PATH-OF-THIS-REPOSITORY/completions/bootcore.fish

# Whether the words before the cursor begin with the subcommand, and what is wanted, an option or FILE, may still come.
function __bootcore_wants --argument-names subcommand wanted
    set -l words (commandline -opc)
    test "$words[2]" = "$subcommand"; or return 1
    set -e words[1..2]
    if test "$wanted" = --help
        test (count $words) -eq 0
        return
    end
    set -l option ''
    for word in $words
        if test -n "$option" # the word is its value
            test "$option" != "$wanted"; or return 1
            set option ''
        else if contains -- $word --out --order
            set option $word
        else if contains -- $word --image
            test "$word" != "$wanted"; or return 1
        else if test "$wanted" = FILE
            return 1
        end
    end
    return 0
end

complete -c bootcore -f
complete -c bootcore -n 'test (count (commandline -opc)) -eq 1' -a boot -d 'boot the menu of a description, and write an image of what the kernel is handed'
complete -c bootcore -n 'test (count (commandline -opc)) -eq 1' -a map -d 'print the memory map of the machine of a description'
complete -c bootcore -n 'test (count (commandline -opc)) -eq 1' -a walk -d 'print what a kernel sees in an image'
complete -c bootcore -n 'test (count (commandline -opc)) -eq 1' -a convert -d 'write an image of either version in version 2'
complete -c bootcore -n 'test (count (commandline -opc)) -eq 1' -a explain -d 'print where each part of a boot is placed, or why an entry is refused'
complete -c bootcore -n 'test (count (commandline -opc)) -eq 1' -a digest -d 'print the SHA-256 of what a boot hands over, or of an image, and of each part'
complete -c bootcore -n 'test (count (commandline -opc)) -eq 1' -l help -d 'print name, version and usage'

complete -c bootcore -n '__bootcore_wants boot FILE' -F
complete -c bootcore -n '__bootcore_wants boot --out' -l out -r -F -d 'the image that is written'
complete -c bootcore -n '__bootcore_wants boot --order' -l order -x -a 'forward reverse' -d 'the order in which pieces of files come'
complete -c bootcore -n '__bootcore_wants boot --help' -l help -d 'print name, version and usage'

complete -c bootcore -n '__bootcore_wants map FILE' -F
complete -c bootcore -n '__bootcore_wants map --help' -l help -d 'print name, version and usage'

complete -c bootcore -n '__bootcore_wants walk FILE' -F
complete -c bootcore -n '__bootcore_wants walk --help' -l help -d 'print name, version and usage'

complete -c bootcore -n '__bootcore_wants convert FILE' -F
complete -c bootcore -n '__bootcore_wants convert --out' -l out -r -F -d 'the image that is written'
complete -c bootcore -n '__bootcore_wants convert --help' -l help -d 'print name, version and usage'

complete -c bootcore -n '__bootcore_wants explain FILE' -F
complete -c bootcore -n '__bootcore_wants explain --order' -l order -x -a 'forward reverse' -d 'the order in which pieces of files come'
complete -c bootcore -n '__bootcore_wants explain --help' -l help -d 'print name, version and usage'

complete -c bootcore -n '__bootcore_wants digest FILE' -F
complete -c bootcore -n '__bootcore_wants digest --image' -l image -d 'the file is an image, and not a description'
complete -c bootcore -n '__bootcore_wants digest --help' -l help -d 'print name, version and usage'
