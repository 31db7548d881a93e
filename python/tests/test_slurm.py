"""A study by Slurm: its table is that of a local sweep, byte for byte; on a real Slurm of this machine, which is started for it and ended with it."""
from __future__ import annotations

import getpass
import os
import shutil
import signal
import socket
import subprocess
import time
from collections.abc import Iterator
from pathlib import Path

import pytest

from study_stub import write_stub
from tora.cli import main

CONFIGURATION = """ClusterName=study
SlurmctldHost=localhost(127.0.0.1)
SlurmctldPort={port}
SlurmUser={user}
SlurmdUser={user}
AuthInfo=socket={work}/munge.socket
StateSaveLocation={work}/state
SlurmdSpoolDir={work}/spool-%n
SlurmctldPidFile={work}/slurmctld.pid
SlurmdPidFile={work}/slurmd-%n.pid
SlurmctldLogFile={work}/slurmctld.log
SlurmdLogFile={work}/slurmd-%n.log
ProctrackType=proctrack/linuxproc
TaskPlugin=task/none
SelectType=select/cons_tres
SelectTypeParameters=CR_CPU
SchedulerParameters=batch_sched_delay=1,sched_interval=2
ReturnToService=2
JobAcctGatherType=jobacct_gather/none
MpiDefault=none
NodeName=first NodeHostname=localhost NodeAddr=127.0.0.1 Port={first} CPUs=1
NodeName=second NodeHostname=localhost NodeAddr=127.0.0.1 Port={second} CPUs=1
PartitionName=all Nodes=first,second Default=YES MaxTime=INFINITE State=UP
"""
DAEMONS = ("munged", "slurmctld", "slurmd")


def free_port() -> int:
    """A port that nobody listens at."""
    with socket.socket() as held:
        held.bind(("127.0.0.1", 0))
        return int(held.getsockname()[1])


@pytest.fixture
def slurm(tmp_path: Path, monkeypatch: pytest.MonkeyPatch) -> Iterator[Path]:
    """A controller and two nodes, of this test alone."""
    monkeypatch.setenv("PATH", os.environ["PATH"] + os.pathsep + "/usr/sbin")
    for name in (*DAEMONS, "sbatch"):
        if shutil.which(name) is None:
            pytest.skip(f"{name} is missing (packages slurm-wlm and munge)")
    work = tmp_path / "slurm"
    (work / "state").mkdir(parents=True)
    work.chmod(0o755)
    ports = {name: free_port() for name in ("port", "first", "second")}
    (work / "slurm.conf").write_text(CONFIGURATION.format(work=work, user=getpass.getuser(), **ports))
    monkeypatch.setenv("SLURM_CONF", str(work / "slurm.conf"))
    (work / "munge.key").write_bytes(os.urandom(128))
    (work / "munge.key").chmod(0o600)
    munged = [
        "munged", "--force", f"--key-file={work}/munge.key", f"--socket={work}/munge.socket", f"--pid-file={work}/munged.pid",
        f"--log-file={work}/munged.log", f"--seed-file={work}/munged.seed",
    ]
    try:
        for command in (munged, ["slurmctld", "-c"], ["slurmd", "-N", "first"], ["slurmd", "-N", "second"]):
            subprocess.run(command, check=True, capture_output=True)
        wait_for_nodes()
        yield work
    finally:
        for path in work.glob("*.pid"):
            text = path.read_text().strip()
            if text:
                try:
                    os.kill(int(text), signal.SIGTERM)
                except ProcessLookupError:
                    pass
        time.sleep(1)


def wait_for_nodes() -> None:
    """Waits until both nodes are idle."""
    for _ in range(60):
        done = subprocess.run(["sinfo", "--noheader", "--Node", "--format=%T"], capture_output=True, text=True)
        if done.stdout.split().count("idle") == 2:
            return
        time.sleep(1)
    pytest.skip("the nodes of Slurm don't come up here")


def test_slurm(tmp_path: Path, slurm: Path) -> None:
    """Two batches by Slurm make the table of a local sweep."""
    stub = str(write_stub(tmp_path))
    words = ["--nodes", "5,6", "--seeds", "2", "--rounds", "30", "--settle", "0", "--program", stub]
    assert main(["sweep", str(tmp_path / "local"), *words]) == 0
    assert main(["sweep", str(tmp_path / "cluster"), *words, "--profile", "slurm", "--batches", "2"]) == 0
    assert (tmp_path / "cluster" / "study.csv").read_bytes() == (tmp_path / "local" / "study.csv").read_bytes()
    assert len(list((tmp_path / "cluster" / "logs").glob("slurm-*.log"))) == 2
