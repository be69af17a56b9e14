" `:compiler ivyview`, and `:make` checks the model: a fault becomes the error that the cursor goes to.
if exists("current_compiler")
  finish
endif
let current_compiler = "ivyview"

CompilerSet makeprg=ivyview\ check\ %:S
CompilerSet errorformat=%f:%l:%c:\ F%n\ %m,%-G%.%#
