"""The options of a host."""
import argparse
import os

TOP = os.path.dirname(os.path.dirname(os.path.dirname(os.path.realpath(__file__))))
LETTERS = set("abcdefghijklmnopqrstuvwxyzABCDEFGHIJKLMNOPQRSTUVWXYZ0123456789_-.")


def address(text):
    host, _, port = text.rpartition(":")
    if not host or not port.isdecimal() or int(port) > 65535:
        raise argparse.ArgumentTypeError(f"'{text}' is no address such as 127.0.0.1:7001")
    return host.strip("[]"), int(port)


def addresses(text):
    return [address(each) for each in text.split(",")]


def first_number(text):
    if not text.isdecimal() or int(text) >= 1 << 64:
        raise argparse.ArgumentTypeError(f"'{text}' is not 0 to 18446744073709551615")
    return int(text)


def count_of_asks(text):
    if not text.isdecimal() or not 1 <= int(text) <= 1_000_000:
        raise argparse.ArgumentTypeError(f"'{text}' is not 1 to 1000000")
    return int(text)


def cluster_name(text):
    if not text or set(text) - LETTERS:
        raise argparse.ArgumentTypeError(f"'{text}' has other characters than letters, digits, _, - and .")
    return text


def parse():
    parser = argparse.ArgumentParser(description="Runs one node of a lock service. The head of host.py says how.")
    add = parser.add_argument
    add("--node", type=int, required=True, help="the number of this node, from 1 on")
    add("--nodes", type=int, required=True, help="how many nodes there are, 1 to 64")
    add("--book", help="the file of the book; by default node1.book for node 1, and so on")
    add("--clients", type=address, help="where clients connect; by default 127.0.0.1:7101 for node 1, and so on")
    add("--peers", type=addresses, help="the addresses of all hosts in order; by default 127.0.0.1:7001,127.0.0.1:7002,..")
    add("--cluster", type=cluster_name, default="locks", help="the name of the cluster: letters, digits, _, - and .")
    add("--start", type=first_number, default=0, help="the number with which each name begins; by default 0")
    add("--carrier", choices=["tcp", "mqtt"], default="tcp", help="what carries messages between hosts")
    add("--broker", type=address, default="127.0.0.1:1883", help="the broker of --carrier mqtt; by default 127.0.0.1:1883")
    add("--forget-after", type=count_of_asks, default=1000,
        help="after so many asks, the node forgets the names that nobody uses; by default 1000")
    add("--fsync", action="store_true", help="keep the book through a power cut, too, which makes each lock slower")
    add("--ra", default=os.path.join(TOP, "crates", "ra", "out", "ra"), help="the program ra")
    options = parser.parse_args()
    if not 1 <= options.node <= options.nodes <= 64:
        parser.error("--nodes must be 1 to 64, and --node 1 to the number of nodes")
    options.book = options.book or f"node{options.node}.book"
    options.clients = options.clients or ("127.0.0.1", 7100 + options.node)
    options.peers = options.peers or [("127.0.0.1", 7000 + each) for each in range(1, options.nodes + 1)]
    if len(options.peers) != options.nodes:
        parser.error(f"--peers must have {options.nodes} addresses, one for each node")
    return options
