"""Says in plain words why a page cannot be at an address and a port: place.py COMMAND HOST PORT"""
import errno
import socket
import sys

REASONS = {
    errno.EADDRINUSE: "the port {port} is taken, perhaps by a table that runs already: choose another one by --port",
    errno.EADDRNOTAVAIL: "{host} is no address of this machine: --host needs one of them, which `hostname -I` prints",
    errno.EACCES: "the port {port} may not be opened: choose one above 1023 by --port",
}


def main() -> None:
    command, host, port = sys.argv[1], sys.argv[2], int(sys.argv[3])
    try:
        if port > 65535:
            raise OverflowError
        kind, _, _, _, place = socket.getaddrinfo(host, port, type=socket.SOCK_STREAM)[0]
        with socket.socket(kind) as it:
            it.setsockopt(socket.SOL_SOCKET, socket.SO_REUSEADDR, 1)
            it.bind(place)
    except OverflowError:
        sys.exit(f"{command}: {port} is not a port: the last one is 65535")
    except socket.gaierror:
        sys.exit(f"{command}: {host} is neither an address nor a name of this machine: --host needs one of its addresses, which `hostname -I` prints")
    except OSError as error:
        sys.exit(f"{command}: " + REASONS.get(error.errno, "the page cannot be at {host}, port {port}").format(host=host, port=port))


main()
