divert(-1)
The project's library, on the base library: its services, and lines for each of them.

define(`SERVICES', `(web, mail, backup)')
define(`last_port', `8000')
define(`next_port', `define(`last_port', incr(last_port))last_port')
define(`per_service', `each(`service', SERVICES, `$1
')')
divert(0)dnl
