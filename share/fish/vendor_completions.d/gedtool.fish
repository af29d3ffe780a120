# fish completion for gedtool

function __gedtool_command -d 'Whether the command is one of these'
    set -l words (commandline -opc)
    set -q words[2]; and contains -- $words[2] $argv
end

function __gedtool_takes_file -d 'Whether the command takes a further file'
    set -l words (commandline -opc)
    set -l files
    set -l before
    set -l flags yes
    for word in $words[3..]
        # what stands behind -o is no file to read, and behind -- nothing is a flag
        if test -z "$flags"
            set -a files $word
        else if test "$word" = --
            set flags
        else
            string match -qr -- '^-.' $word; or contains -- "$before" -o --output; or set -a files $word
        end
        set before $word
    end
    if __gedtool_command lines check show canon
        test (count $files) -lt 1
    else if __gedtool_command same
        test (count $files) -lt 2
    else
        __gedtool_command digest
    end
end

function __gedtool_begins -d 'Whether no command is there yet'
    set -l words (commandline -opc)
    test (count $words) -eq 1
end

function __gedtool_takes_command -d 'Whether a command comes next'
    set -l words (commandline -opc)
    __gedtool_begins; or test "$words[2..]" = help
end

complete -c gedtool -f
complete -c gedtool -n __gedtool_takes_file -F

complete -c gedtool -n __gedtool_takes_command -a lines -d 'Write the lines of a file in their canonical spelling'
complete -c gedtool -n __gedtool_takes_command -a check -d 'Judge a file, and report its notices'
complete -c gedtool -n __gedtool_takes_command -a show -d 'Write the level, tag and kind of payload of each structure'
complete -c gedtool -n __gedtool_takes_command -a canon -d 'Write a file in its canonical form'
complete -c gedtool -n __gedtool_takes_command -a same -d 'Say whether two files have the same canonical form'
complete -c gedtool -n __gedtool_takes_command -a explain -d 'Explain a fault, by its number or its name'
complete -c gedtool -n __gedtool_takes_command -a digest -d 'Write the digest of the canonical form of each file'
complete -c gedtool -n __gedtool_takes_command -a help -d 'Print this message or the help of the given subcommand(s)'

complete -c gedtool -n '__gedtool_command check show canon same digest' -l strict -d 'Refuse a file that has a notice'
complete -c gedtool -n '__gedtool_command canon same digest' -l second -d 'Use the second edition, which leaves out leading zeros too'
complete -c gedtool -n '__gedtool_command canon same' -l keep-names -d 'Leave identifiers as they are'
complete -c gedtool -n '__gedtool_command lines show canon' -r -F -s o -l output -d 'Write the answer to this file, whole or not at all'
complete -c gedtool -n '__gedtool_command lines check show canon same digest' -l explain -d 'Explain in words, on standard error'
complete -c gedtool -n 'not __gedtool_command help' -s h -l help -d 'Print help'
complete -c gedtool -n __gedtool_begins -s V -l version -d 'Print version'
