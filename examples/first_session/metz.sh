# The peer METZ: contact, sign-on, and the acknowledgement of what has waited.
exec 3<> /dev/tcp/127.0.0.1/17502
for frame in 012d \
    1002a08fcff0c929d4c5e3e94040404001000000000000040040404040404040404040404040404040000000000000001026 \
    1070
do
    xxd -r -p <<< "$frame" >&3
    sleep 0.5
    dd bs=4096 count=1 <&3 2> /dev/null | xxd -p -c 200
done
