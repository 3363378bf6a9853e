"""Lines that have a fault, and lines that say nothing, worked out by hand from the notation of docs/SCRIPT.md."""

import subprocess

REGION = "JOB REGION BELOW=1\n"

# After a REGION statement.
SECOND = {
    "JS01": [256 * " ", 256 * "*", 256 * "\0", 1000 * "J"],
    "JS02": [
        "JOB\tGETMAIN R,LV=8,A=X",
        "JOB GETMAIN R,LV=8,A=X\r",
        "* a comment\x7f",
        "   \x1f",
        "JOB WHERE \xc3\xa9",
        " JOB NOPE \x80",
        "T WHERE X \x7f",
    ],
    "JS03": [
        " JOB GETMAIN R,LV=8,A=X",
        "1JOB GETMAIN R,LV=8,A=X",
        "JOBNAMEXX GETMAIN R,LV=8,A=X",
        "job GETMAIN R,LV=8,A=X",
        "JOB,GETMAIN R,LV=8,A=X",
        "JOB",
        "JOB   ",
        "JOB GETMAI R,LV=8,A=X",
        "JOB GETMAINS R,LV=8,A=X",
        "JOB NOPE A=,=",
        "9 REGION BELOW=1",
        " * no comment",
        "JOB GETMAIN XX,LV=8,A=X",
        "JOB GETMAIN ,LV=8,A=X",
        "JOB FREEMAIN VRC,LV=8,A=X",
        "JOB STORAGE r,LV=8,A=X",
        "JOB GETMAIN (R),LV=8,A=X",
        "JOB CPOOL BUILDS,LV=",
        "JOB REPORT X",
        "T RETURNED",
        "T REPORT SPX",
    ],
    "JS04": [
        "JOB GETMAIN R,",
        "JOB GETMAIN R,,LV=8,A=X",
        "JOB GETMAIN R,LV=8,A=X,",
        "JOB GETMAIN R,lv=8,A=X",
        "JOB GETMAIN R,=8,A=X",
        "JOB GETMAIN R,LENGTHLEN=8,A=X",
        "JOB GETMAIN R,LV=8,A=X,LOC=ANY",
        "JOB GETMAIN R,SP=,LV=8,A=X",
        "JOB GETMAIN R,8,LV=8,A=X",
        "JOB GETMAIN R,LV=(8 ,8),A=X",
        "JOB GETMAIN R,LV=8=8,A=X",
        "JOB PUT X,",
        "JOB SHOW ,8",
        "JOB WHERE X,A=Y",
        "JOB CPOOL GET,,CPID=P,CELL=C",
        "JOB REPORT SP,X",
        "JOB GETMAIN VC,LV=8,A=X",
        "JOB GETMAIN VC,LV=(),A=X",
        "JOB GETMAIN VC,LV=(8),A=X",
        "JOB GETMAIN VC,LV=(8,8,8),A=X",
        "JOB GETMAIN VC,LV=(8)(8,8),A=X",
        "JOB GETMAIN VC,LV=(8,),A=X",
        "JOB GETMAIN VC,LV=((8),8),A=X",
        "JOB GETMAIN VC,LV=(0,X),A=X",
        "JOB GETMAIN VC,LV=(8,8,A=X",
        "JOB SHOW X'',8",
        "JOB SHOW X',8",
        "JOB SHOW X'000000000',8",
        "JOB SHOW X'60G0',8",
        "JOB SHOW X'6000'+8,8",
        "JOB SHOW X+,8",
        "JOB SHOW +8,8",
        "JOB SHOW X+8+8,8",
        "JOB SHOW 1X+99999999999,8",
        "JOB PUT X,X''",
        "JOB PUT X,X'C1C'",
        "JOB PUT X,X'c1'",
        "JOB PUT X,C1",
        "JOB GETMAIN R,LV=8,LV=X,A=X",
        "JOB ATTACH TASK=T,GSPL=(5,5,X)",
        "T GETMAIN RC,LV=8,A=X,LOC=ANYX",
        "T PUT X,X'0'",
    ],
    "JS05": [
        "JOB GETMAIN",
        "JOB FREEMAIN   ",
        "JOB STORAGE LENGTH=8,ADDR=X",
        "JOB CPOOL =",
        "JOB GETMAIN (A=B),LV=8,A=X",
        "JOB REPORT SP=R",
        "JOB GETMAIN R",
        "JOB GETMAIN R,LV=8",
        "JOB GETMAIN R LV=8,A=X",
        "JOB FREEMAIN R,LV=8",
        "JOB STORAGE RELEASE,ADDR=X",
        "JOB WHERE",
        "JOB MOVE X,Y",
        "JOB CPOOL BUILD,CPID=P,CSIZE=8",
    ],
    "JS06": [
        "JOB SHOW X'80000000',8",
        "JOB SHOW X+33554432,8",
        "JOB SHOW X+00000000001,8",
        "JOB PUT X,X'" + 202 * "0" + "'",
        "JOB GETMAIN R,LV=0,A=X",
        "JOB GETMAIN R,LV=2147483648,A=X",
        "JOB GETMAIN R,LV=00000000008,A=X",
        "JOB GETMAIN R,LV=0,LV=X",
        "JOB ATTACH TASK=T,GSPV=131",
        "JOB GETMAIN R,LV=8,A=X,SP=256",
        "JOB GETMAIN VC,LV=(8,9),A=X",
        "JOB GETMAIN RC,LV=8,A=X,STARTBDY=32",
        "JOB STORAGE OBTAIN,LENGTH=(8,0),ADDR=X",
        "JOB GETMAIN LC,LA=(8,0),A=(X,Y)",
        "JOB FREEMAIN LC,A=(X,X,X,X,X,X,X,X,X,X,X,X,X,X,X,X,X),LA=(8)",
        "JOB GETMAIN LC,A=(A,B,C,D,E,F,G,H,I,J,K,L,M,N,O,P,Q),LA=(8)",
        "JOB ATTACH TASK=T,SHSPL=(1,132)",
        "JOB ABEND 4096",
        "T SHOW X,4097",
    ],
    "JS07": [
        "JOB GETMAIN R,LV=8,LV=8,A=X",
        "JOB GETMAIN R,LV=8,LV=0",
        "JOB GETMAIN R,A=X,LV=8,A=Y,LV=0",
        "JOB GETMAIN LC,LA=(8,8),A=(X,X)",
        "JOB ATTACH TASK=T,GSPL=(5,05)",
        "JOB ATTACH TASK=T,SHSPL=(0,0)",
        "JOB ATTACH TASK=T,GSPL=(200,1,0200)",
        "JOB ATTACH TASK=T,GSPL=(123456789012345678901,00123456789012345678901)",
    ],
    "JS08": [
        "JOB GETMAIN RC,LV=8,A=X,BNDRY=PAGE,STARTBDY=4",
        "JOB STORAGE OBTAIN,LENGTH=8,ADDR=X,CONTBDY=12,BNDRY=DBLWD",
        "JOB ATTACH TASK=T,GSPV=5,GSPL=(6)",
        "JOB ATTACH TASK=T,SHSPV=5,SHSPL=(6)",
        "JOB ATTACH TASK=T,GSPL=(5,6),SHSPV=6",
        "JOB GETMAIN LC,LA=(8,8),A=(X)",
        "JOB FREEMAIN LC,LA=(8),A=(X,Y)",
    ],
}

# As the first line.
FIRST = {
    "JS03": [
        "9 WHERE X",
        "JOB WHEREX",
    ],
    "JS04": [
        "JOB REGION BELOW",
        "JOB REGION BELOW=1,ABOVE=",
        "JOB REGION BELOW=1,FILL=5",
        "JOB REGION BELOW=1,FILL=0a",
        "JOB REGION RES=RES",
        "JOB REGION BELOW=1,1",
    ],
    "JS06": [
        "JOB REGION ABOVE=8193",
        "JOB REGION BELOW=1,ABOVE=00000000000",
        "JOB REGION BELOW=2049",
    ],
    "JS09": [
        "JOB WHERE X",
        "JOB GETMAIN",
        "JOB GETMAIN XX",
        "JOB GETMAIN X=,LV=Q",
    ],
}

NOTHING = [255 * " ", 255 * "*", "", "*", "*X RETURN"]


def cases():
    """The lines, the text before each, and what is printed."""
    begun = "1 JOB REGION BELOW 1 ABOVE 0\n"
    for fault, lines in SECOND.items():
        yield from ((line, REGION, f"{begun}2 {fault}\nJOB FAULT RC 12\n") for line in lines)
    for fault, lines in FIRST.items():
        yield from ((line, "", f"1 {fault}\nJOB FAULT RC 12\n") for line in lines)
    yield from ((line, REGION, f"{begun}STEP ENDED RC 0\n") for line in NOTHING)


def results(program):
    for line, before, wanted in cases():
        script = f"{before}{line}\n".encode("latin-1")
        ran = subprocess.run([program], input=script, capture_output=True, timeout=600)
        yield line[:80], ran.stdout.decode() == wanted
