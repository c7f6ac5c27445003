"""Lines for the console: Rijndael with blocks of 24 and 32 bytes (request E6), newest first in crates/console/stdin and stdout.

The six blocks are those of the request: an independent program and libmcrypt agree on them. In CBC with an IV of zeros the first block is
the same, and is handed on. The refusals are those of the card. Prints the lines, or with the word `answers` what they are answered with."""
import sys

KEY = "2b7e151628aed2a6abf7158809cf4f3c762e7160f38b4da56a784d9045190cfe"
BLOCK = "3243f6a8885a308d313198a2e03707344a4093822299f31d0082efa98ec4e6c8"
GIVES = {
    (24, 16): "b24d275489e82bb8f7375e0d5fcdb1f481757c538b65148a",
    (24, 24): "725ae43b5f3161de806a7c93e0bca93c967ec1ae1b71e1cf",
    (24, 32): "0ebacf199e3315c2e34b24fcc7c46ef4388aa475d66c194c",
    (32, 16): "7d15479076b69a46ffb3b3beae97ad8313f622f67fedb487de9f06b9ed9c8f19",
    (32, 24): "5d7101727bb25781bf6715b0e6955282b9610e23a43c2eb062699f0ebf5887b2",
    (32, 32): "a49406115dfb30a40418aafa4869b7c6a886ff31602a7dd19c889dc64f7e4e7a",
}


def lines():
    for (width, size), cipher in GIVES.items():
        key, plain, zeros = KEY[: 2 * size], BLOCK[: 2 * width], "00" * width
        yield f"wide{width}-ecb-encrypt {key} - {plain} {zeros}", f"0 {cipher}"
        yield f"wide{width}-ecb-decrypt {key} - {cipher} {zeros}", f"0 {plain}"
        yield f"wide{width}-cbc-encrypt {key} {zeros} {plain} {zeros}", f"0 {cipher} {cipher}"
        yield f"wide{width}-cbc-decrypt {key} {zeros} {cipher} {zeros}", f"0 {cipher} {plain}"
        # a room that is longer keeps what stands behind the result
        yield f"wide{width}-ecb-encrypt {key} - {plain} {zeros}a5a5", f"0 {cipher}a5a5"
    for width in (24, 32):
        key, plain, room = KEY, BLOCK[: 2 * width], "5a" * width
        none = "00" * width
        yield f"wide{width}-ecb-encrypt {key[:30]} - {plain} {room}", f"1 {room}"
        yield f"wide{width}-cbc-encrypt {key[:30]} {none} {plain} {room}", f"1 {none} {room}"
        yield f"wide{width}-ecb-encrypt {key} {none} {plain} {room}", f"2 {room}"
        yield f"wide{width}-cbc-encrypt {key} {none[:32]} {plain} {room}", f"2 {none} {room}"
        yield f"wide{width}-ecb-decrypt {key} - {plain[:32]} {room}", f"3 {room}"
        yield f"wide{width}-cbc-decrypt {key} {none} {plain}00 {room}", f"3 {none} {room}"
        yield f"wide{width}-ecb-encrypt {key} - {plain} {room[2:]}", f"4 {room[2:]}"
        yield f"wide{width}-cbc-encrypt {key} {none} {plain} {room[2:]}", f"4 {none} {room[2:]}"
        # the first that applies
        yield f"wide{width}-cbc-encrypt {key[:2]} - {plain}00 -", f"1 {none} -"
        yield f"wide{width}-cbc-encrypt {key} - {plain}00 -", f"2 {none} -"
        yield f"wide{width}-cbc-encrypt {key} {none} {plain}00 -", f"3 {none} -"
        # nothing in, nothing out: the IV is handed on
        yield f"wide{width}-cbc-encrypt {key} {room} - -", f"0 {room} -"
        yield f"wide{width}-ecb-encrypt {key} {plain}", "?"


for line, answer in lines():
    print(answer if sys.argv[1:] == ["answers"] else line)
