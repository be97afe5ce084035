"""Reads aliases: further names of hosts and ports, in rows `host,port,alias`."""
from functools import lru_cache

from .names import Aliases, End, Names
from .plan import Faults, PlanFault
from .rows import table_of

COLUMNS = ["host", "port", "alias"]
MOST_PORTS = 64  # no aggregate has more members
MOST_ROWS = 500_000


def read_aliases(file: str, names: Names) -> Aliases:
    """Returns the aliases in a file, normalized. A row without a port gives a host another name; a
    row without a host is for a port of any host. Several ports may share an alias. A neighbor
    that announces the alias may then be any of these ports. Raises PlanFault and OSError."""
    faults, aliases = Faults(file), Aliases({}, {})
    for count, (line, fields) in enumerate(table_of(faults, COLUMNS)):
        if count == MOST_ROWS:
            raise PlanFault([f"{file}: it has over {MOST_ROWS} rows"])
        if len(fields) != len(COLUMNS) or not fields[2] or not any(fields[:2]):
            faults.add(line, "it must be host,port,alias; only the host or the port may be empty")
            continue
        why = added(aliases, names, *fields)
        if why:
            faults.add(line, why)
    for alias, host in aliases.hosts.items():
        if alias != host in aliases.hosts:
            faults.add(None, f"{host} is an alias itself, so it cannot have the alias {alias}")
    faults.end()
    if not aliases.hosts:
        return aliases
    ports: dict[End, tuple[str, ...]] = {}
    for end, names_of_port in aliases.ports.items():
        key = End(aliases.hosts.get(end.host, end.host), end.port)
        ports[key] = (*ports.get(key, ()), *names_of_port)
    return Aliases(aliases.hosts, ports)


def added(aliases: Aliases, names: Names, host: str, port: str, alias: str) -> str:
    """Adds an alias. Returns why it cannot be added, or an empty text."""
    host = names.plain_host(host)
    if not port:
        before = aliases.hosts.setdefault(names.plain_host(alias), host)
        why = f"{alias} is an alias of itself" if host == names.plain_host(alias) else ""
        return why if before == host else f"{alias} is an alias of two hosts: {before} and {host}"
    key = End(host, names.plain_port(alias))
    ports = aliases.ports.get(key, ())
    if len(ports) == MOST_PORTS:
        return f"{alias} is an alias of over {MOST_PORTS} ports"
    its = of_one_port(names.plain_port(port))
    aliases.ports[key] = ports + its if ports else its
    return ""


@lru_cache(None)
def of_one_port(port: str) -> tuple[str, ...]:
    """Returns a port in a tuple, the same one each time: hosts have ports of the same names."""
    return (port,)
