" The syntax of scripts of mvsjob.
if exists('b:current_syntax')
  finish
endif
syntax case match
syntax match mvsjobComment /^\*.*$/
syntax match mvsjobTask /^[A-Z@#$][A-Z0-9@#$]\{0,7}\ze / nextgroup=mvsjobOperation skipwhite
syntax keyword mvsjobOperation contained REGION GETMAIN FREEMAIN STORAGE CPOOL ATTACH RETURN ABEND PUT SHOW MOVE WHERE REPORT
syntax match mvsjobAnswer / =>.*$/
syntax match mvsjobForm /\v<(R|EC|EU|RC|RU|VC|VU|VRC|VRU|LC|LU|OBTAIN|RELEASE|BUILD|GET|FREE|DELETE|SP|MAP)\ze(,| |$)/
syntax match mvsjobKey /\v<(BELOW|ABOVE|FILL|RES|LV|A|SP|BNDRY|LOC|STARTBDY|CONTBDY|LA|LENGTH|ADDR|COND|CPID|CSIZE|PCELLCT|SCELLCT|CELL|TASK|GSPV|GSPL|SHSPV|SHSPL|SZERO)\ze\=/
syntax match mvsjobValue /\v\=\zs(DBLWD|PAGE|BELOW|ABOVE|ANY|RES|YES|NO)>/
syntax match mvsjobBytes /X'[0-9A-F]*'/
syntax match mvsjobNumber /\<[0-9]\+\>/
highlight default link mvsjobComment Comment
highlight default link mvsjobTask Identifier
highlight default link mvsjobOperation Statement
highlight default link mvsjobForm Type
highlight default link mvsjobKey Keyword
highlight default link mvsjobValue Constant
highlight default link mvsjobBytes String
highlight default link mvsjobNumber Number
highlight default link mvsjobAnswer Special
let b:current_syntax = 'mvsjob'
