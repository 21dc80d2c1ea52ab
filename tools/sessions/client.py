#!/usr/bin/env python3
"""A client of the package `websockets` in one trial: client.py TRIAL PORT FOLDER

Does what the lines of the file TRIAL say, with the server at PORT of this machine that serves FOLDER. Its
status is 0 where the server answers as the lines say. tools/session_clients has what the lines mean.
"""
import asyncio
import json
import os
import sys

from websockets.exceptions import ConnectionClosed
from websockets.frames import Opcode
from websockets.legacy.client import connect

# how long a server has for each answer, in seconds
PATIENCE = 60
IDLE = '{"type":"idle"}'
SENDING = ("send", "bytes", "parts", "part", "rest", "wide", "wideparts", "unmasked")


def parts_of(text, size):
    return [text[at : at + size] for at in range(0, len(text), size)]


class Client:
    def __init__(self, port, folder):
        self.port = port
        self.folder = folder
        self.socket = None
        self.answers = []

    async def receive(self):
        return self.answers.pop() if self.answers else await self.socket.recv()

    async def connect(self, _):
        self.socket = await connect(f"ws://127.0.0.1:{self.port}/", max_size=None, ping_interval=None)

    async def refused(self, _):
        reader, writer = await asyncio.open_connection("127.0.0.1", self.port)
        writer.write(b"GET / HTTP/1.1\r\nHost: 127.0.0.1\r\n\r\n")
        answer = await reader.read()
        writer.close()
        if b" 101 " in answer:
            raise AssertionError("the handshake was taken")

    async def send(self, text):
        await self.socket.send(text)

    async def bytes(self, text):
        await self.socket.send(text.encode())

    async def parts(self, text):
        await self.socket.send(parts_of(text, 5))

    async def wide(self, rest):
        size, text = rest.split(" ", 1)
        await self.socket.send(text.ljust(int(size)))

    async def wideparts(self, rest):
        size, text = rest.split(" ", 1)
        await self.socket.send(parts_of(text.ljust(int(size)), 1 << 20))

    async def part(self, text):
        await self.socket.write_frame(False, Opcode.TEXT, text.encode())

    async def rest(self, text):
        await self.socket.write_frame(True, Opcode.CONT, text.encode())

    async def unmasked(self, text):
        self.socket.is_client = False
        await self.socket.write_frame(True, Opcode.TEXT, text.encode())
        self.socket.is_client = True

    async def ping(self, text):
        await (await self.socket.ping(text))

    async def poll(self, text):
        while True:
            await self.socket.send(text)
            answer = await self.socket.recv()
            if answer != IDLE:
                self.answers.append(answer)
                return
            await asyncio.sleep(0.05)

    async def answer(self, text):
        answer = await self.receive()
        if answer != text:
            raise AssertionError(f"the answer is {answer}")

    async def save(self, rest):
        name, text = rest.split(" ", 1)
        path = self.folder + name
        with open(path + ".new", "w", encoding="utf-8") as file:
            file.write(json.loads(text))
        os.replace(path + ".new", path)

    async def close(self, _):
        await self.socket.close()
        if self.socket.close_code != 1000:
            raise AssertionError(f"closed by {self.socket.close_code}")

    async def cut(self, _):
        # a masked text of 100 bytes, of which 5 come
        self.socket.transport.write(bytes([0x81, 0x80 | 100, 0, 0, 0, 0]) + b"{\"typ")
        self.socket.transport.close()

    async def ends(self, _):
        try:
            answer = await self.receive()
        except ConnectionClosed:
            return
        raise AssertionError(f"the answer is {answer}")


async def play(trial, port, folder):
    client = Client(port, folder)
    with open(trial, encoding="utf-8") as lines:
        for number, line in enumerate(lines, 1):
            verb, _, rest = line.rstrip("\n").partition(" ")
            if verb in ("", "#", "serve", "status", "report"):
                continue
            try:
                await asyncio.wait_for(getattr(client, verb)(rest), PATIENCE)
            except ConnectionClosed as error:
                # a server that refuses a message ends the connection while it is sent
                if verb not in SENDING:
                    raise SystemExit(f"line {number}, {verb}: {error}")
            except Exception as error:
                raise SystemExit(f"line {number}, {verb}: {type(error).__name__}: {error}")


asyncio.run(play(*sys.argv[1:4]))
