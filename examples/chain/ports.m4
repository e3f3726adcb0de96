The ports of the count(SERVICES) services:
per_service(`service: next_port')dnl
