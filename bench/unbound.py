"""The configuration of each `unbound` that is measured."""
import os

CONFIGURATION = """
server:
  interface: 127.0.0.1
  port: {port}
  do-daemonize: no
  use-syslog: no
  verbosity: 0
  chroot: ""
  username: ""
  directory: "{folder}"
  pidfile: ""
  num-threads: {threads}
  module-config: "iterator"
{options}
remote-control:
  control-enable: yes
  control-interface: "{folder}/control"
  control-use-cert: no
"""


def configured(folder, port, threads, options, zones=""):
    """Writes a configuration with more options of the server, and with zones. Returns its path."""
    path = os.path.join(folder, "unbound.conf")
    with open(path, "w", encoding="ascii") as file:
        file.write(CONFIGURATION.format(folder=folder, port=port, threads=threads, options=options) + zones)
    return path
