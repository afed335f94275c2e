"""Serves the page from one process, for one person: python3 -m table [PORT [HOST]]. The settings are in the environment, as start.sh sets them."""
import sys

from werkzeug.serving import WSGIRequestHandler, make_server

from . import create_app
from .place import told


class Quiet(WSGIRequestHandler):
    """A handler that logs nothing, and does not wait for ever for a browser that says nothing."""

    timeout = 20

    def log(self, type: str, message: str, *args: object) -> None:
        """Nothing is logged: a game has names of people."""


def main() -> None:
    port, host = int(sys.argv[1]) if len(sys.argv) > 1 else 8080, sys.argv[2] if len(sys.argv) > 2 else "127.0.0.1"
    server = make_server(host, port, create_app(), threaded=True, request_handler=Quiet)
    print(told(f"{host}:{server.server_port}"), flush=True)
    try:
        server.serve_forever()
    except KeyboardInterrupt:
        pass


if __name__ == "__main__":
    main()
