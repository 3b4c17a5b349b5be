" What `fltstack explain` finds in a text, a line a finding: `a.flt:6:5: error[R02]: TITLE`, `a.flt:6:5: warning[W03]: TITLE`.

if exists('current_compiler')
  finish
endif
let current_compiler = 'fltstack'

CompilerSet makeprg=fltstack\ explain\ --form\ short\ %:S
CompilerSet errorformat=%f:%l:%c:\ %trror%m,%f:%l:%c:\ %tarning%m
