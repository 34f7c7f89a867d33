"""What the example line_and_column prints, in each language that has it."""
import subprocess

# a text, and for some of its bytes what the example prints: the line and the UTF-16 column
TEXT = "Zeile eins\r\n🐸 zwei\u2028drei".encode()
ROWS = {0: "0:0", 10: "0:10", 11: "0:11", 12: "1:0", 14: "1:0", 16: "1:2", 17: "1:3", 28: "1:12", 99: "1:12"}


def check_example(tally, program, how, environment=None):
    """The example's answers at some bytes of the text, and that it takes no bytes that are not UTF-8."""
    for byte, expected in ROWS.items():
        done = subprocess.run([program, str(byte)], input=TEXT, env=environment, capture_output=True)
        printed = done.stdout.decode().strip()
        tally.result(printed == expected, f"example {how}, byte {byte}: {printed}")
    done = subprocess.run([program, "0"], input=b"\xe3\x81", env=environment, capture_output=True)
    tally.result(done.returncode == 1 and not done.stdout, f"example {how}, bytes that are not UTF-8: status {done.returncode}")
