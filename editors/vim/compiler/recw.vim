" Checks of REC specifications: :compiler recw, and then :make, which goes to each place that is told.
if exists('current_compiler')
  finish
endif
let current_compiler = 'recw'

CompilerSet makeprg=recw\ check\ %:S
CompilerSet errorformat=%f:%l:%c:\ %trror:\ %m,%f:%l:%c:\ %tarning:\ %m
