# The peer LYON: contact, sign-on, HI to PAUL at METZ, and ANNA's LIST.
import socket

hub = socket.create_connection(("127.0.0.1", 17501))
for frame in (
    "012d",
    "1002a08fcff0c929d3e8d6d54040404001000000000000040040404040404040404040404040404040000000000000001026",
    "1002808fcf9a80c820770002d4c5e3e984c500d7c1e4d384c4d3e8d6d584c300c8c900001026",
    "1002818fcf9a80caa0770004c2e4d9c5c1e482c500c1d5d5c184c4d3e8d6d584c500d3c9e2e300001026",
):
    hub.sendall(bytes.fromhex(frame))
    print(hub.recv(4096).hex())
