"""The texts of statuses of the library for C, as its programs print them."""
NO_EVENT = "there is no event"
LEFT_OVER = "bytes are left over"
TOO_MANY_ALGORITHMS = "the header has too many algorithms"
NO_HASH = "there is no hash function for the algorithm"
NO_DIGEST = "the event has no digest of the algorithm"
# The faults of quotes, in the order in which c_quotes.py has them.
OF_QUOTES = [
    "no TPM generated the bytes",
    "the TPM signed another structure than a quote",
    "the byte `safe` is neither 0 nor 1",
    "the selection isn't one of a PC",
    "the bytes end within a field, or before one",
    LEFT_OVER,
]
