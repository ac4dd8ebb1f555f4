"""The README's example: bytes go from one endpoint to the other, and one packet is lost."""

from gotsavena import Endpoint, NoSuchStreamError, Role, build


def main():
    with Endpoint(Role.CLIENT) as client, Endpoint(Role.SERVER) as server:
        stream = client.open()
        assert client.write(stream, b"hello") == 5
        client.finish(stream)
        lost = client.make_packet()
        client.declare_lost(lost.number)
        while made := client.make_packet():
            assert server.receive(made.number, made.payload)
        assert server.accept() == stream and server.accept() is None
        assert server.read(stream) == b"hello"
        assert server.read(stream) == b""
        try:
            server.write(stream + 4, b"hello")
        except NoSuchStreamError:
            print("hello", build())


if __name__ == "__main__":
    main()
