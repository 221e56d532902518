foo ~ !
