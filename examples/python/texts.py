"""The frames of a stream, and what is found of a transcript.

    YARNTAUPE=PATH/TO/libyarntaupe.so python3 texts.py
"""
import yarntaupe

TRANSCRIPT = b"""\
> {"seq":1,"type":"request","command":"initialize","arguments":{"adapterID":"x"}}
< {"seq":2,"type":"response","request_seq":1,"success":true,"command":"initialize"}
"""
STREAM = b"Content-Length: 2\r\n\r\n{}Content-Length: 3\r\n\r\n[1]"

frames = yarntaupe.Frames()
for place in range(len(STREAM)):  # a byte at a time
    for body in frames.bodies(STREAM[place:place + 1]):
        print("body", body.decode())
try:
    list(frames.bodies(b"Content-Length: x\r\n\r\n"))
except yarntaupe.Refused as refused:
    print("refused", refused.code, "at", refused.at, "cause", refused.cause)
frames.close()

print("finding", *yarntaupe.check(TRANSCRIPT))
print("with any numbers of the adapter", yarntaupe.check(TRANSCRIPT, any_seq=2))
