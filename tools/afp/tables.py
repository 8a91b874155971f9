"""The numbers and layouts of the protocol (docs/PROTOCOL.md)."""

CODES = {
    "Ok": 0, "NoMemory": -108, "NoMoreSessions": -1068, "AccessDenied": -5000, "BadUAM": -5002, "BadVersNum": -5003, "BitmapErr": -5004,
    "CantMove": -5005, "DenyConflict": -5006, "DirNotEmpty": -5007, "DiskFull": -5008, "EOFErr": -5009, "FileBusy": -5010,
    "ItemNotFound": -5012, "LockErr": -5013, "MiscErr": -5014, "NoMoreLocks": -5015, "ObjectExists": -5017, "ObjectNotFound": -5018,
    "ParamErr": -5019, "RangeNotLocked": -5020, "RangeOverlap": -5021, "UserNotAuth": -5023, "CallNotSupported": -5024,
    "ObjectTypeErr": -5025, "TooManyFilesOpen": -5026, "CantRename": -5028, "DirNotFound": -5029, "VolLocked": -5031,
    "ObjectLocked": -5032, "IDNotFound": -5034, "IDExists": -5035, "SameObjectErr": -5038, "BadIDErr": -5039,
}
CODE_NAMES = {number: name for name, number in CODES.items()}

DSI = {
    "DSICloseSession": 1, "DSICommand": 2, "DSIGetStatus": 3, "DSIOpenSession": 4, "DSITickle": 5, "DSIWrite": 6, "DSIAttention": 8,
}
DSI_NAMES = {number: name for name, number in DSI.items()}
COMMAND, GET_STATUS, OPEN_SESSION, WRITE = 2, 3, 4, 6
ANSWERED = (COMMAND, GET_STATUS, OPEN_SESSION, WRITE)

# The UAM by name and password, and how many bytes a password has.
CLEARTEXT, PASSWORD_SIZE = b"Cleartxt Passwrd", 8

# Each call: its number, its name, its request behind the command byte, and behind > its reply. A field is NAME:WORD; the words are in
# blocks.py. Numbers are sizes in bytes, s4 and s8 are signed.
CALLS = """
1 FPByteRangeLock flags:lock ref:2 offset:s4 length:s4 > start:4
2 FPCloseVol pad vol:2 >
3 FPCloseDir pad vol:2 dir:4 >
4 FPCloseFork pad ref:2 >
5 FPCopyFile pad vol:2 dir:4 target_vol:2 target_dir:4 path:path target_path:path new_path:path >
6 FPCreateDir pad vol:2 dir:4 path:path > dir:4
7 FPCreateFile flag:create vol:2 dir:4 path:path >
8 FPDelete pad vol:2 dir:4 path:path >
9 FPEnumerate pad vol:2 dir:4 file_bits:file dir_bits:dir count:2 start:2 size:2 path:path > file_bits:file dir_bits:dir entries:narrow
10 FPFlush pad vol:2 >
11 FPFlushFork pad ref:2 >
14 FPGetForkParms pad ref:2 bits:file > bits:file values:file_values
15 FPGetSrvrInfo lastpad > status:tail
16 FPGetSrvrParms lastpad > time:date volumes:volumes
17 FPGetVolParms pad vol:2 bits:volume > bits:volume values:volume_values
18 FPLogin version:str uam:str tail:login >
20 FPLogout lastpad >
21 FPMapID function:function mapped_id:4 > name:id_name
22 FPMapName function:function name:name_of > mapped_id:4
23 FPMoveAndRename pad vol:2 dir:4 target_dir:4 path:path target_path:path new_path:path >
24 FPOpenVol pad bits:volume name:str > bits:volume values:volume_values
25 FPOpenDir pad vol:2 dir:4 path:path > dir:4
26 FPOpenFork flag:fork vol:2 dir:4 bits:file mode:mode path:path > bits:file ref:2 values:file_values
27 FPRead pad ref:2 offset:s4 count:4 mask:byte character:byte > data:tail
28 FPRename pad vol:2 dir:4 path:path new_path:path >
29 FPSetDirParms pad vol:2 dir:4 bits:dir path:path even settings:dir_settings >
30 FPSetFileParms pad vol:2 dir:4 bits:file path:path even settings:file_settings >
31 FPSetForkParms pad ref:2 bits:file settings:file_settings >
32 FPSetVolParms pad vol:2 bits:volume settings:volume_settings >
33 FPWrite flag:from_end ref:2 offset:s4 count:count4 data:data > end:4
34 FPGetFileDirParms pad vol:2 dir:4 file_bits:file dir_bits:dir path:path > file_bits:file dir_bits:dir kind:kind pad values:node_values
35 FPSetFileDirParms pad vol:2 dir:4 bits:file path:path even settings:file_settings >
37 FPGetUserInfo flag:user_flag user_id:4 bits:user > bits:user user_id:asked_user group_id:asked_group
38 FPGetSrvrMsg pad type:2 bits:message > type:2 bits:message message:message_text
39 FPCreateID pad vol:2 dir:4 path:path > file_id:4
40 FPDeleteID pad vol:2 file_id:4 >
41 FPResolveID pad vol:2 file_id:4 bits:file > bits:file values:file_values
42 FPExchangeFiles pad vol:2 dir:4 second_dir:4 path:path second_path:path >
48 FPOpenDT pad vol:2 > dt:2
49 FPCloseDT pad dt:2 >
51 FPGetIcon pad dt:2 creator:type type:type icon_type:1 pad size:2 > data:tail
52 FPGetIconInfo pad dt:2 creator:type index:2 > tag:4 type:type icon_type:1 pad size:2
53 FPAddAPPL pad dt:2 dir:4 creator:type tag:4 path:path >
54 FPRemoveAPPL pad dt:2 dir:4 creator:type path:path >
55 FPGetAPPL pad dt:2 creator:type index:2 bits:file > bits:file tag:4 values:file_values
56 FPAddComment pad dt:2 dir:4 path:path even comment:str >
57 FPRemoveComment pad dt:2 dir:4 path:path >
58 FPGetComment pad dt:2 dir:4 path:path > comment:str
59 FPByteRangeLockExt flags:lock ref:2 offset:s8 length:s8 > start:8
60 FPReadExt pad ref:2 offset:s8 count:s8 > data:tail
61 FPWriteExt flag:from_end ref:2 offset:s8 count:count8 data:data > end:8
63 FPLoginExt pad flags:word version:str uam:str utf8 user:long path_type:path_type path_name:typed_path even tail:login_ext >
64 FPGetSessionToken pad type:token_type id_length:id_count stamp:stamp token_id:identity > token:quad
65 FPDisconnectOldSession pad type:2 token:quad >
66 FPEnumerateExt pad vol:2 dir:4 file_bits:file dir_bits:dir count:2 start:2 size:2 path:path > file_bits:file dir_bits:dir entries:wide
68 FPEnumerateExt2 pad vol:2 dir:4 file_bits:file dir_bits:dir count:2 start:4 size:4 path:path > file_bits:file dir_bits:dir entries:wide
192 FPAddIcon pad dt:2 creator:type type:type icon_type:1 pad tag:4 size:count2 data:data >
"""

# The bits of each bitmap by their numbers, and the word of a parameter's field. Those of files and directories begin alike.
NODE_BITS = {
    0: ("attributes", "attributes"), 1: ("parent_id", "4"), 2: ("created", "date"), 3: ("modified", "date"), 4: ("backup", "date"),
    5: ("finder_info", "finder"), 6: ("long_name", "name"), 8: ("node_id", "4"), 13: ("utf8_name", "utf8_name"),
}
BITS = {
    "volume": {
        0: ("attributes", "attributes"), 1: ("signature", "2"), 2: ("created", "date"), 3: ("modified", "date"), 4: ("backup", "date"),
        5: ("volume_id", "2"), 6: ("bytes_free", "4"), 7: ("bytes_total", "4"), 8: ("volume_name", "name"), 9: ("ext_bytes_free", "8"),
        10: ("ext_bytes_total", "8"), 11: ("block_size", "4"),
    },
    "file": {
        **NODE_BITS, 9: ("data_length", "4"), 10: ("resource_length", "4"), 11: ("ext_data_length", "s8"), 14: ("ext_resource_length", "s8"),
    },
    "dir": {
        **NODE_BITS, 9: ("offspring_count", "2"), 10: ("owner_id", "4"), 11: ("group_id", "4"), 12: ("access_rights", "rights"),
    },
    "attributes": {
        0: ("invisible",), 2: ("system",), 3: ("data fork open",), 4: ("resource fork open",), 5: ("write inhibit",),
        6: ("backup needed",), 7: ("rename inhibit",), 8: ("delete inhibit",), 15: ("set",),
    },
    "mode": {0: ("read",), 1: ("write",), 4: ("deny read",), 5: ("deny write",)},
    "user": {0: ("user ID",), 1: ("primary group ID",)},
    "message": {0: ("message",), 1: ("UTF-8",)},
    "lock": {0: ("unlock",), 7: ("from the fork's end",)},
    "create": {7: ("hard create",)},
    "fork": {7: ("resource fork",)},
    "from_end": {7: ("from the fork's end",)},
    "user_flag": {0: ("this user",)},
}

# The sizes of bits, and of parameters in their fixed part.
SIZES = {
    "1": 1, "2": 2, "4": 4, "8": 8, "s8": 8, "date": 4, "finder": 32, "name": 2, "utf8_name": 6, "attributes": 2, "rights": 4,
    "volume": 2, "file": 2, "dir": 2, "mode": 2, "user": 2, "message": 2, "word": 2, "lock": 1, "create": 1, "fork": 1, "from_end": 1,
    "user_flag": 1, "byte": 1,
}

# The AFP Reference's words for the short names of scripts; others are their own, with spaces.
REFERENCE_WORDS = {
    "vol": "volume ID", "dir": "directory ID", "ref": "fork reference number", "path": "pathname", "bits": "bitmap", "mode": "access mode",
    "target_vol": "destination volume ID", "target_dir": "destination directory ID", "target_path": "destination pathname",
    "new_path": "new name", "second_dir": "destination directory ID", "second_path": "destination pathname", "dt": "DT reference number",
    "file_bits": "file bitmap", "dir_bits": "directory bitmap", "count": "requested count",
    "version": "AFP version", "uam": "UAM", "tail": "user authentication information", "mask": "newline mask", "character": "newline character",
    "end": "last written", "data": "data", "quantum": "attention quantum", "request": "request quantum", "replay": "replay cache size",
    "file_id": "file ID", "tag": "user tag", "mapped_id": "ID", "user_id": "user ID", "group_id": "primary group ID", "more": "bytes behind the last field", "hex": "bytes",
}
