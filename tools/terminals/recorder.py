#!/usr/bin/env python3
"""The program in the terminal, which record.py starts: recorder.py SOCKET.

It makes the terminal raw and sends each read of up to 4096 bytes to the socket, as a line with the
time and the bytes in hexadecimal. What comes from the socket is written to the terminal."""
import os
import select
import socket
import sys
import termios
import time
import tty


def main():
    link = socket.socket(socket.AF_UNIX, socket.SOCK_STREAM)
    link.connect(sys.argv[1])
    terminal = os.open("/dev/tty", os.O_RDWR)
    saved = termios.tcgetattr(terminal)
    tty.setraw(terminal)
    link.sendall(f"TERM {os.environ.get('TERM')}\n".encode())
    try:
        while True:
            ready = select.select([terminal, link], [], [])[0]
            if terminal in ready:
                data = os.read(terminal, 4096)
                if not data:
                    break
                link.sendall(f"{time.time():.6f}\t{data.hex()}\n".encode())
            if link in ready:
                data = link.recv(65536)
                if not data:
                    break
                while data:
                    data = data[os.write(terminal, data) :]
    finally:
        termios.tcsetattr(terminal, termios.TCSANOW, saved)


if __name__ == "__main__":
    main()
