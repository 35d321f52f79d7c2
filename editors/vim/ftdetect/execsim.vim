" A TOML file that has a table of a machine is a machine file, and a file NAME.events is an event text. Made by tools/make-pages of tools/machine-keys.toml and docs/words.json.
autocmd BufRead,BufNewFile *.toml if search('^\s*\[\[\%(library\|softint\|region\|server\|task\)\]\]', 'nw') | set filetype=execsim | endif
autocmd BufRead,BufNewFile *.events set filetype=execsim_events
