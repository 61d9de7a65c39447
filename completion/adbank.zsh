#compdef adbank
# Completion of adbank's words in zsh: a command, and then its files. adbank takes no options.

local -a commands=(
    'compile:compile the bank that a manifest describes'
    'check:check a stored bank and its certificates against the sources'
    'bound:find bounds near the errors of a stored bank'
    'decompile:store a WAVE file for each entry of an image, a VAG file or a WAVE file of IMA ADPCM'
    'play:say the first outputs of an entry of an image, a VAG file or a WAVE file of IMA ADPCM'
    'make:compile sounds that a number gives, and store nothing'
    'block:make one block of sixteen raw samples'
)

case $CURRENT,$words[2] in
    2,*) _describe command commands ;;
    3,compile | 3,check | 3,bound) _files -g '*.toml' ;;
    3,play | 3,decompile) compadd brr vag ima ;;
    4,play | 4,decompile) _files ;;
    5,decompile) _message 'how the names of the WAVE files begin' ;;
    4,bound) _message 'effort, at most 100000' ;;
    3,make) _message 'number' ;;
    5,play) _message 'entry, counted from 0' ;;
    6,play) _message 'count of outputs' ;;
    [34],block) _files ;;
esac
