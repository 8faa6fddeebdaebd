use foresight::{Error, Kind, Session, Symbol, Value};

const HANDLERS: &str = "map m; handler f(k) { let a = get(m, k); put(m, k, 1); reply a; }\n%%\n";

fn symbol(kind: Kind, key: Value, value: Value) -> Symbol {
    Symbol { kind, table: 0, key, value }
}

#[test]
fn serves_and_refuses() {
    assert_eq!(foresight::version() / 10_000, 2);
    assert_eq!(
        Session::open(b"map ;\n%%\n", 7, 10).err(),
        Some(Error::Refused("refused S2 at 4".to_owned()))
    );
    let mut session = Session::open(HANDLERS.as_bytes(), 7, 6).unwrap();
    assert_eq!(session.serve(&["f a", "", "f a"]).unwrap(), ["nil", "1"]);
    assert_eq!(session.request("").unwrap(), None);
    for (line, why) in [
        ("g", Error::Refused("unknown handler".to_owned())),
        ("f", Error::Refused("wrong number of arguments".to_owned())),
        ("f !", Error::Refused("a word that is no value".to_owned())),
        ("f\nf", Error::ManyLines),
    ] {
        let unserved = session.serve(&["f a", line, "f b"]).unwrap_err();
        assert_eq!(unserved.why, why);
        assert_eq!(unserved.replies.len(), usize::from(why != Error::ManyLines));
    }
    let many: Vec<String> = (0..40_000).map(|i| format!("f {}", i % 1_000)).collect();
    assert_eq!(session.serve(&many).unwrap().len(), 40_000);
    assert_eq!(session.tables().unwrap().lines().count(), 1_002);
}

#[test]
fn drives_tickets() {
    let mut session = Session::open(HANDLERS.as_bytes(), 7, 100).unwrap();
    let a = Value::Name(session.name("a").unwrap());
    let Value::Name(number) = a else { unreachable!() };
    assert_eq!(session.text(number).as_deref(), Some("a"));
    assert_eq!(session.text(1_000), None);
    assert_eq!(session.name("a b"), Err(Error::Refused("the text is no symbol".to_owned())));
    let get = symbol(Kind::Get, a, Value::Nil);
    let put = symbol(Kind::Put, a, Value::Number(3));
    let ticket = session.begin(&[get, symbol(Kind::Put, a, Value::Any)]).unwrap();
    assert_eq!(session.request("f a"), Err(Error::Delayed(ticket)));
    assert_eq!(session.call(ticket, get), Ok(Value::Nil));
    assert_eq!(session.narrow(ticket, &[put]), Ok(()));
    assert_eq!(session.call(ticket, get), Err(Error::Undeclared));
    assert_eq!(session.call(ticket, put), Ok(Value::Nil));
    assert_eq!(session.end(ticket), Ok(()));
    assert_eq!(session.end(ticket), Err(Error::NoTicket));
    assert_eq!(session.request("f a").unwrap().as_deref(), Some("3"));
    assert_eq!(session.begin(&vec![get; 257]), Err(Error::Full));
}

#[test]
fn goes_from_thread_to_thread() {
    let session = std::sync::Mutex::new(Session::open(HANDLERS.as_bytes(), 7, 100).unwrap());
    std::thread::scope(|threads| {
        for i in 0..8 {
            let session = &session;
            threads.spawn(move || {
                for j in 0..1_000 {
                    session.lock().unwrap().request(&format!("f {}", i * 1_000 + j)).unwrap();
                }
            });
        }
    });
    assert_eq!(session.into_inner().unwrap().tables().unwrap().lines().count(), 8_001);
}
