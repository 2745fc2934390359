" Schedules of xl, and what its commands write of them. docs/FORMATS.md has the lines; tools/tests/test_editors holds this file
" against them. Vim finds it by `set runtimepath+=PATH/docs/editors/vim`, or below ~/.vim.
if exists('b:current_syntax')
  finish
endif
syntax case match

" a first word that is none, a name, a number, an id, raw digits; what comes later here wins
syntax match xlUnknown /^\s*\S\+/
syntax match xlName /\%([ \t,]\)\@1<=[a-z][a-z0-9]\{0,15}\ze\%([ \t,]\|$\)/
syntax match xlNumber /\%([ \t,]\)\@1<=\d\+\ze\%([ \t,]\|$\)/
syntax match xlId /\%([ \t,]\)\@1<=\x\{64}\ze\%([ \t,]\|$\)/
syntax match xlDigits /\%(^\s*\%(raw\s\+\d\+\|roll\)\s\+\)\@<=\x\+\ze\s*$/
syntax match xlWord /\s\@1<=\%(full\|partial\|observing\|none\|root\|ok\|short\|yes\|no\|given\|open\|establish\|accepted\|proposing\|switched\|on\|off\|relisted\|untagged\)\ze\%(\s\|$\)/
syntax match xlKind /\%(^\s*\%(lie\|frame\)\s\+\d\+\s\+\d\+\s\+\)\@<=\%(proposal\|validation\|header\|set\|tx\)\ze\s/
syntax match xlEvent /\%(^\s*\%(cut\|fail\)\s\+\%(old\|new\)\s\+\)\@<=\%(issue\|timer\)\ze\s/
syntax match xlWord /\%(^\s*\%(cut\|fail\)\s\+\)\@<=\%(old\|new\)\ze\s/

" what is told: what happens, what a frame says, and what a node holds
syntax match xlKind /\%(^\%(event\s\+\d\+\s\+\d\+\|sent\s\+\d\+\s\+\d\+\s\+\d\+\|held\s\+\d\+\|event\s\+\d\+\s\+\d\+\s\+lie\s\+\d\+\s\+\d\+\)\s\+\)\@<=[a-z]\+\ze\%(\s\|$\)/
syntax match xlWord /\%(^event\s\+\d\+\s\+\d\+\s\+\%(cut\|fail\)\s\+\)\@<=\%(old\|new\)\ze\s/
syntax match xlEvent /\%(^event\s\+\d\+\s\+\d\+\s\+\%(cut\|fail\)\s\+\%(old\|new\)\s\+\)\@<=\%(issue\|timer\)\ze\s/

" the first word of a line: of a schedule or a text of rolls, and of what is written
syntax match xlHeader /^\s*xl-\%(schedule\|publish\)\ze\s\+1\s*$/
syntax match xlDeclaration /^\s*\%(node\|liar\|limit\|speak\|at\|name\|ledger\|publisher\|threshold\)\ze\%(\s\|$\)/
syntax match xlEvent /^\s*\%(issue\|submit\|timers\|timer\|deliver\|all\|drop\|greet\|list\|restart\|cut\|fail\|lie\|prefer\|heard\|raw\|roll\)\ze\%(\s\|$\)/
syntax match xlTold /^\%(switched\|built\|refused\|preferred\|kept\|forged\|pair\|paper\|frames\|frame\|majority\|enabled\|lost\|fee\|flags\|gen\|lines\|sent\|event\|held\|journal\|keys\|twice\|confessed\|denied\|clear\)\ze\%(\s\|$\)/
syntax match xlFinal /^\%(full\|agree\|yes\)\ze\%(\s\|$\)/
syntax match xlFault /^\%(fork\|short\|bad\|no\|settings\|blame\)\ze\%(\s\|$\)/
syntax match xlComment /^\s*#.*$/

highlight default link xlUnknown Error
highlight default link xlName Identifier
highlight default link xlNumber Number
highlight default link xlId Constant
highlight default link xlDigits Constant
highlight default link xlWord Type
highlight default link xlKind Type
highlight default link xlHeader PreProc
highlight default link xlDeclaration Statement
highlight default link xlEvent Function
highlight default link xlTold Keyword
highlight default link xlFinal Title
highlight default link xlFault WarningMsg
highlight default link xlComment Comment

let b:current_syntax = 'xl'
