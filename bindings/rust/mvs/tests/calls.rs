//! Each call of the crate, and what it refuses. The replies of the library itself are tested in C.
use mvs::{
    AddressHolder, Area, ChangedPages, EffectKind, Error, EventKind, Form, HeldRun, Holder, Location, Name, Obtain, Place, Pool, ReasonKind, Region,
    Request, Session, Status, StepEnd, Subtask, Task,
};

fn job() -> Name {
    Name::new("JOB").unwrap()
}

fn begun() -> Session {
    let mut session = Session::new().unwrap();
    session
        .begin(&Region {
            above: 2,
            ..Region::new(job(), 4)
        })
        .unwrap();
    session
}

#[test]
fn names() {
    for text in ["", "9A", "a", "ABCDEFGHI", "A B", "\u{e9}"] {
        assert_eq!(Name::new(text), None);
    }
    assert_eq!(Name::new("@1#$").unwrap().to_string(), "@1#$");
}

#[test]
fn lines() {
    let mut session = begun();
    assert_eq!(session.text().unwrap(), b"1 JOB REGION BELOW 4 ABOVE 2\n");
    assert_eq!(session.line("JOB GETMIAN R,LV=8,A=X"), Err(Error::Fault(3)));
    assert_eq!(session.begin(&Region::new(job(), 0)), Err(Error::Fault(6)));
    assert_eq!(session.line("JOB GETMAIN R,LV=8,A=X").unwrap().kind, EventKind::Rc0);
    let (status, event) = session.end().unwrap();
    assert_eq!(
        (status, event.kind, event.ended, event.task),
        (Status::Ok, EventKind::JobEnded, Some(StepEnd::Clean), None)
    );
    assert_eq!(session.line("JOB RETURN"), Err(Error::Status(Status::Over)));
}

#[test]
fn copies() {
    let mut session = begun();
    session.line("JOB GETMAIN R,LV=8,A=X").unwrap();
    let mut copy = session.try_clone().unwrap();
    let address = copy.line("JOB WHERE X").unwrap().address;
    assert_eq!(session.line("JOB WHERE X").unwrap().address, address);
    session.write(address, b"abc").unwrap();
    copy.write(address, b"xyz").unwrap();
    assert_eq!(session.read(address, 3).unwrap(), b"abc");
    drop(session);
    assert_eq!(copy.read(address, 3).unwrap(), b"xyz");
}

#[test]
fn without_bytes() {
    let mut session = Session::without_bytes(Place::Low).unwrap();
    session.begin(&Region::new(job(), 4)).unwrap();
    assert_eq!(session.changed_pages(), Ok(None));
    let area = session.request(job(), &Request::Obtain(Obtain::new(Form::Rc, 8192))).unwrap();
    let changed = ChangedPages {
        first: area.address,
        last: area.address + 4096,
    };
    assert_eq!((session.changed_pages(), session.changed_pages()), (Ok(Some(changed)), Ok(None)));
    let none = Err(Error::Status(Status::NoBytes));
    assert_eq!(session.read(area.address, 1).map(|_| ()), none);
    assert_eq!(session.lend(area.address).map(|_| ()), none);
    assert_eq!((session.write(area.address, b"a"), session.line("JOB SHOW X'6000',1").map(|_| ())), (none, none));
    let area = Area {
        address: area.address,
        length: 8192,
    };
    assert_eq!(session.request(job(), &Request::Show(Area { length: 4, ..area })).unwrap().kind, EventKind::Done);
    let release = Request::Release {
        form: Form::Rc,
        subpool: 0,
        area,
    };
    assert_eq!(session.request(job(), &release).unwrap().kind, EventKind::Rc0);
    assert_eq!(session.try_clone().unwrap().changed_pages(), Ok(Some(changed)));
    assert_eq!(begun().changed_pages(), Ok(None));
}

#[test]
fn effects() {
    let mut session = begun();
    session.record().unwrap();
    let event = session
        .request(
            job(),
            &Request::Obtain(Obtain {
                subpool: 3,
                ..Obtain::new(Form::Rc, 20)
            }),
        )
        .unwrap();
    let found = session.effects().unwrap();
    let kinds: Vec<_> = found.iter().map(|effect| (effect.kind, effect.rule)).collect();
    assert_eq!(
        kinds,
        [
            (EffectKind::Obtained, 3),
            (EffectKind::NewSubpool, 42),
            (EffectKind::PagesAssigned, 5)
        ]
    );
    assert_eq!(
        (found[0].address, found[0].length, found[0].requested),
        (event.address, 24, (20, 20))
    );
    assert_eq!((found[1].number, found[1].owner, found[2].pages), (3, Some(job()), (1, 0)));
    session.request(job(), &Request::Return).unwrap();
    assert_eq!(session.effects().unwrap().last().unwrap().kind, EffectKind::Freed);
}

#[test]
fn storage() {
    let mut session = begun();
    let wanted = Obtain {
        subpool: 7,
        least: 8,
        within: 12,
        location: Location::Any,
        ..Obtain::new(Form::Vrc, 9000)
    };
    let event = session.request(job(), &Request::Obtain(wanted)).unwrap();
    assert_eq!(
        (event.kind, event.address, event.length, event.task),
        (EventKind::Granted, 0x0100_0000, 4096, Some(job()))
    );
    session.write(event.address, b"abc").unwrap();
    assert_eq!(session.read(event.address, 3).unwrap(), b"abc");
    assert_eq!(session.read(event.address + 4095, 2), Err(Error::Status(Status::NoAccess)));
    assert_eq!(session.lend(event.address + 4094).unwrap(), [0, 0]);
    assert_eq!(session.lend(event.address).unwrap()[..4], *b"abc\0");
    assert_eq!(session.lend(event.address + 4096), Err(Error::Status(Status::NoAccess)));
    let subpools: Vec<_> = session.subpools(job()).map(|line| (line.number, line.owned, line.plain)).collect();
    assert_eq!(subpools, [(7, true, 4096)]);
    let owners: Vec<_> = session.pages().map(|run| (run.area, run.owner)).collect();
    assert_eq!(
        owners[1],
        (
            Area {
                address: 0x0100_0000,
                length: 4096
            },
            Some((job(), 7))
        )
    );
    let held: Vec<_> = session.held_runs().collect();
    let area = Area {
        address: 0x0100_0000,
        length: 4096,
    };
    assert_eq!(
        held,
        [HeldRun {
            area,
            holder: Holder::Subpool(job(), 7)
        }]
    );
    let whole = Request::ReleaseWhole {
        form: Form::Ru,
        subpool: 7,
    };
    assert_eq!(session.request(job(), &whole).unwrap().kind, EventKind::Rc0);
    let event = session.request(job(), &Request::Obtain(Obtain::new(Form::R, 1 << 30))).unwrap();
    assert_eq!((event.kind, event.system_code()), (EventKind::Abended, Some(0x80A)));
}

#[test]
fn lists() {
    let mut session = begun();
    let (event, areas) = session.obtain_list(job(), Form::Lc, 0, &[8, 20]).unwrap();
    assert_eq!((event.kind, areas.len(), areas[1].length), (EventKind::Rc0, 2, 24));
    assert_eq!(session.release_list(job(), Form::Lu, 0, &areas).unwrap().kind, EventKind::Rc0);
    assert_eq!(session.obtain_list(job(), Form::Lc, 0, &[8, 1 << 30]).unwrap().1, []);
    let refused = session.obtain_list(job(), Form::Lc, 0, &[]).unwrap_err();
    assert_eq!(
        (refused.field(), refused.to_string()),
        (Some("areas"), "areas is out of range".to_owned())
    );
}

#[test]
fn reasons() {
    let mut session = begun();
    assert_eq!(session.why().unwrap(), b"");
    assert_eq!(session.line("JOB GETMAIN R,LV=8,A=X,SP=200").unwrap().kind, EventKind::Abended);
    assert_eq!(
        session.why().unwrap(),
        b"* A program can use SP 0 to 127, 131 and 132, but not 200. (rule 8)\n"
    );
    let reason = session.reason().unwrap().unwrap();
    assert_eq!((reason.kind, reason.rule, reason.number), (ReasonKind::InvalidNumber, 8, 200));
}

#[test]
fn reason_fields() {
    let mut session = begun();
    assert_eq!(session.reason(), Ok(None));
    let area = session.request(job(), &Request::Obtain(Obtain::new(Form::Rc, 8))).unwrap();
    assert_eq!(session.reason(), Ok(None));
    let release = Request::Release {
        form: Form::Rc,
        subpool: 0,
        area: Area {
            address: area.address,
            length: 16,
        },
    };
    assert_eq!(session.request(job(), &release).unwrap().kind, EventKind::Rc4);
    let reason = session.reason().unwrap().unwrap();
    assert_eq!((reason.kind, reason.rule, reason.second_rule), (ReasonKind::NotHeld, 26, Some(66)));
    assert_eq!(
        (reason.address, reason.holder, reason.task),
        (area.address + 8, Some(AddressHolder::Nobody), Some(job()))
    );
    let abend = session.request(job(), &Request::SystemAbend(0x0C1)).unwrap();
    assert_eq!((abend.kind, abend.system_code()), (EventKind::Abended, Some(0x0C1)));
    assert_eq!(session.reason().unwrap().unwrap().kind, ReasonKind::Asked);
    assert_eq!(
        session.request(job(), &Request::SystemAbend(0x1000)).unwrap_err().field(),
        Some("code")
    );
}

#[test]
fn refused_fields() {
    let mut session = begun();
    let wanted = Obtain {
        boundary: 13,
        ..Obtain::new(Form::Ec, 8)
    };
    assert_eq!(
        session.request(job(), &Request::Obtain(wanted)).unwrap_err().field(),
        Some("boundary")
    );
    assert_eq!(session.request(job(), &Request::Abend(4096)).unwrap_err().field(), Some("code"));
    let subtask = Subtask {
        given: 1,
        ..Subtask::new(Name::new("SUB").unwrap())
    };
    assert_eq!(
        session.request(job(), &Request::Attach(subtask)).unwrap_err().field(),
        Some("given_low")
    );
    let mut empty = Session::placed(Place::High).unwrap();
    assert_eq!(empty.request(job(), &Request::Return), Err(Error::Status(Status::NoStep)));
}

#[test]
fn pools_and_tasks() {
    let mut session = begun();
    let (pool, sub, below) = (Name::new("P").unwrap(), Name::new("SUB").unwrap(), Name::new("SUB2").unwrap());
    let build = Pool {
        name: pool,
        subpool: 0,
        cell: 12,
        primary: 1,
        secondary: 0,
        location: Location::Res,
    };
    assert_eq!(session.pool(pool), Ok(None));
    assert_eq!(session.request(job(), &Request::Build(build)).unwrap().kind, EventKind::Rc0);
    let found = session.pool(pool).unwrap().unwrap();
    assert_eq!((found.cell, found.parts, found.cells, found.owner), (12, 1, 1, Some((job(), 0))));
    assert_eq!(session.pools().collect::<Vec<_>>(), [pool]);
    let job_step = Task { name: job(), mother: None };
    assert_eq!(session.tasks().collect::<Vec<_>>(), [job_step]);
    let get = Request::Get { pool, conditional: true };
    let cell = session.request(job(), &get).unwrap();
    assert_eq!(
        (cell.kind, session.request(job(), &get).unwrap().kind),
        (EventKind::Cell, EventKind::NoCell)
    );
    let area = Area {
        address: cell.address,
        length: 12,
    };
    assert_eq!(session.request(job(), &Request::Show(area)).unwrap().kind, EventKind::Done);
    let copy = Request::Move {
        to: Area {
            address: cell.address + 4,
            length: 4,
        },
        from: cell.address,
    };
    assert_eq!(session.request(job(), &copy).unwrap().kind, EventKind::Done);
    let free = Request::Free {
        pool,
        address: cell.address,
    };
    assert_eq!(session.request(job(), &free).unwrap().kind, EventKind::Rc0);
    assert_eq!(session.request(job(), &Request::Delete { pool }).unwrap().kind, EventKind::Rc0);
    assert_eq!(
        session.request(job(), &Request::Attach(Subtask::new(sub))).unwrap().kind,
        EventKind::Attached
    );
    assert_eq!(
        session.request(sub, &Request::Attach(Subtask::new(below))).unwrap().kind,
        EventKind::Attached
    );
    let abend = session.request(sub, &Request::Abend(7)).unwrap();
    assert_eq!((abend.code, abend.system_code(), session.fallen().unwrap()), (7, None, vec![below]));
    assert_eq!(session.request(job(), &Request::Return).unwrap().kind, EventKind::Ended);
    assert_eq!(session.subpools(sub).count(), 0);
    let release = Request::Release {
        form: Form::Rc,
        subpool: 0,
        area,
    };
    assert_eq!(session.request(job(), &release).unwrap().kind, EventKind::NotRun);
}

#[test]
fn other_threads() {
    let mut session = begun();
    let moved = std::thread::spawn(move || {
        session.line("JOB GETMAIN R,LV=8,A=X").unwrap();
        session
    });
    assert_eq!(moved.join().unwrap().line("JOB FREEMAIN R,LV=8,A=X").unwrap().kind, EventKind::Rc0);
    assert_eq!(mvs::version() / 1000, 2);
}

#[test]
fn statements() {
    let area = Name::new("X").unwrap();
    let wanted = Obtain {
        least: 8,
        boundary: 12,
        ..Obtain::new(Form::Vc, 100)
    };
    assert_eq!(
        mvs::statement(job(), &Request::Obtain(wanted), area).unwrap(),
        b"JOB GETMAIN VC,LV=(100,8),A=X,SP=0,BNDRY=PAGE"
    );
    assert_eq!(
        mvs::statement(job(), &Request::Abend(4096), area),
        Err(Error::Status(Status::NoRequest))
    );
}

#[test]
fn whole_scripts() {
    assert_eq!(mvs::run(b"JOB REGION BELOW=1\n", Place::Low).unwrap().0, Status::Ok);
    assert_eq!(mvs::run(&vec![b'\n'; 1 << 24], Place::Low), Err(Error::Status(Status::TooLong)));
}
