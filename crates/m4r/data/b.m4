hi(`you')
