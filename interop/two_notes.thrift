// The services of multiplexed_client.py, which live in two processes behind `route`.
include "notes.thrift"

service Left extends notes.Notes {
}

service Right extends notes.Notes {
}
