"""A client of RemixDB: requests and replies as classes, and a connection that carries them.

    from remixdb import Get, Put, start_program

    with start_program() as store:
        store.ask(Put(b"a", b"1"))
        print(store.ask(Get(b"a")).value)

start_program(dir="FOLDER") starts it over a folder, whose updates last over runs and crashes as soon
as a Sync was answered.
"""

from .connection import Connection, Program, ProgramFailed, SessionEnded, start_program
from .messages import (
    Absent,
    BadMessage,
    Bye,
    Delete,
    DeviceFault,
    Done,
    Get,
    HistorySpent,
    Message,
    NotAReply,
    NumbersSpent,
    OutOfMemory,
    Put,
    Quit,
    Refusal,
    Sync,
    Synced,
    Value,
)

__all__ = [
    "Absent",
    "BadMessage",
    "Bye",
    "Connection",
    "Delete",
    "DeviceFault",
    "Done",
    "Get",
    "HistorySpent",
    "Message",
    "NotAReply",
    "NumbersSpent",
    "OutOfMemory",
    "Program",
    "ProgramFailed",
    "Put",
    "Quit",
    "Refusal",
    "SessionEnded",
    "Sync",
    "Synced",
    "Value",
    "start_program",
]
