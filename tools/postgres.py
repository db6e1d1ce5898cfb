"""A PostgreSQL of its own for tests and measures, where Debian's is installed."""

import glob
import os
import shutil
import subprocess


class Postgres:
    """A server of its own in a folder, over a socket there."""

    def __init__(self, folder: str) -> None:
        self.folder, self.bin = f"{folder}/postgres", (sorted(glob.glob("/usr/lib/postgresql/*/bin")) or [""])[-1]
        self.user = ["setpriv", "--reuid=postgres", "--regid=postgres", "--clear-groups"] if os.geteuid() == 0 else []

    def is_there(self) -> bool:
        return all(os.path.exists(f"{self.bin}/{it}") for it in ("initdb", "pg_ctl", "pgbench"))

    def run(self, *words: str) -> str:
        command = [*self.user, f"{self.bin}/{words[0]}", *words[1:]]
        return subprocess.run(command, cwd=self.folder, capture_output=True, text=True, check=True, timeout=120).stdout

    def sql(self, text: str, *more: str) -> str:
        """What a statement answers."""
        words = ["psql", "-h", self.folder, "-U", "load", "-v", "ON_ERROR_STOP=1", "-qAt", *more, "-c", text, "postgres"]
        return self.run(*words).strip()

    def start(self) -> None:
        os.chmod(os.path.dirname(self.folder), 0o755)
        os.mkdir(self.folder)
        if self.user:
            shutil.chown(self.folder, "postgres", "postgres")
        self.run("initdb", "-D", "data", "-A", "trust", "-U", "load")
        self.run("pg_ctl", "-D", "data", "-w", "-l", "log", "-o", f"-k {self.folder} -h '' -c max_connections=300", "start")

    def stop(self) -> None:
        self.run("pg_ctl", "-D", "data", "-m", "immediate", "stop")
