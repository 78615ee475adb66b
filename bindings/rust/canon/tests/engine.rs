//! A store over an engine in Rust that is no WebAssembly: its function returns what it is given, or lies.

use canon::*;

/// Each export but the last returns its parameters. They are few enough to be passed and returned in memory by one pointer or one word.
#[derive(Default)]
struct Mirror {
    top: u32,
    lie: Lie,
}

#[derive(Clone, Copy, Default, PartialEq)]
enum Lie {
    #[default]
    None,
    Panics,
    Asks,
    ManyWords,
    Grows,
    BlockPastTheEnd,
    NotInstantiated,
    Short,
}

impl Engine for Mirror {
    fn instantiate(&mut self, memory: &mut Memory<'_>) -> Result<(), Fault> {
        memory.as_slice_mut().fill(0);
        if self.lie == Lie::NotInstantiated {
            return Err(Fault::Trap);
        }
        Ok(())
    }

    fn start(&mut self, memory: &mut Memory<'_>, _func: u32, words: &[u64]) -> Result<Step, Fault> {
        match self.lie {
            Lie::Panics => panic!("a lie"),
            Lie::Asks => {
                return Ok(Step::Import {
                    index: 0,
                    words: words.to_vec(),
                })
            }
            Lie::ManyWords => return Ok(Step::Return(vec![0; 1000])),
            Lie::Grows => memory.grow(1 << 40)?,
            Lie::Short => return Err(Fault::OutOfMemory),
            _ => {}
        }
        if words.len() == 1 {
            return Ok(Step::Return(words.to_vec()));
        }
        // The words of a text or a list go to memory, where the result is.
        for (i, word) in words.iter().enumerate() {
            memory.as_slice_mut()[8 + 4 * i..][..4].copy_from_slice(&(*word as u32).to_le_bytes());
        }
        Ok(Step::Return(vec![8]))
    }

    fn resume(&mut self, _memory: &mut Memory<'_>, words: &[u64]) -> Result<Step, Fault> {
        Ok(Step::Return(words.to_vec()))
    }

    fn realloc(
        &mut self,
        memory: &mut Memory<'_>,
        _: u64,
        _: u64,
        align: u32,
        new_size: u64,
    ) -> Result<u64, Fault> {
        let at = self.top.max(1024).next_multiple_of(align);
        self.top = at + new_size as u32;
        let len = memory.as_slice().len();
        if self.lie == Lie::BlockPastTheEnd {
            return Ok(len as u64 - 1);
        }
        if self.top as usize > len {
            memory.grow(self.top as usize - len)?;
        }
        Ok(u64::from(at))
    }
}

fn component(ty: Type) -> Component {
    let same = Function::new([ty.clone()], [ty]);
    Component {
        exports: vec![same.clone()],
        imports: vec![Import::Function(same)],
        ..Component::default()
    }
}

fn store(ty: Type, lie: Lie) -> Result<Store, Error> {
    let host = |_: u32, params: Vec<Value>| Ok(params);
    Store::new(component(ty), Mirror { top: 0, lie }, host)
}

/// What comes of a call of a store that lies.
fn refusal(ty: Type, value: Value, lie: Lie) -> String {
    let mut store = store(ty, lie).unwrap();
    let told = store.call(0, std::slice::from_ref(&value)).unwrap_err().to_string();
    assert_eq!(
        store.call(0, &[value]).unwrap_err().to_string(),
        "refused CannotEnterComponent"
    );
    told
}

#[test]
fn values_come_back() {
    let record = Type::record([("a", Type::U8), ("b", Type::list(Type::String))]);
    let texts = Value::List(vec![Value::string("é"), Value::string("")]);
    for (ty, value) in [
        (Type::U32, Value::U32(7)),
        (Type::Char, Value::Char('é')),
        (Type::String, Value::string("a text")),
        (
            Type::list(Type::U16),
            Value::List(vec![Value::U16(1), Value::U16(2)]),
        ),
        (Type::list(Type::String), texts.clone()),
        (
            Type::list(record),
            Value::List(vec![Value::record([("a", Value::U8(1)), ("b", texts)])]),
        ),
    ] {
        let mut store = store(ty, Lie::None).unwrap();
        assert_eq!(store.call(0, std::slice::from_ref(&value)), Ok(vec![value]));
    }
}

#[test]
fn memory_grows() {
    let mut store = store(Type::String, Lie::None).unwrap();
    let text = Value::String("x".repeat(200_000));
    assert_eq!(store.call(0, std::slice::from_ref(&text)), Ok(vec![text]));
    assert_eq!(
        store.marks(),
        Ok(vec![Mark {
            lawful: true,
            tidy: false
        }])
    );
    assert_eq!(store.live_handles(), Ok(0));
}

#[test]
fn an_import_is_served() {
    let mut store = store(Type::U32, Lie::Asks).unwrap();
    assert_eq!(store.call(0, &[Value::U32(9)]), Ok(vec![Value::U32(9)]));
}

#[test]
fn events_are_told_once_where_they_are_kept() {
    let kept = Component {
        memory: 1024,
        keeps_events: true,
        ..component(Type::U32)
    };
    let host = |_: u32, params: Vec<Value>| Ok(params);
    let engine = Mirror {
        top: 0,
        lie: Lie::Asks,
    };
    let mut keeping = Store::new(kept, engine, host).unwrap();
    assert_eq!(keeping.events(), Ok(vec![]));
    assert_eq!(keeping.call(0, &[Value::U32(9)]), Ok(vec![Value::U32(9)]));
    let (words, memory) = (vec![9], vec![0; 1024]);
    let start = Event::Start {
        func: 0,
        words: words.clone(),
        memory: memory.clone(),
    };
    let ask = Event::Ask {
        import: 0,
        words: words.clone(),
        memory: memory.clone(),
    };
    let resume = Event::Resume {
        words: words.clone(),
        memory: memory.clone(),
    };
    let end = Event::Return { words, memory };
    assert_eq!(keeping.events(), Ok(vec![start, ask, resume, end]));
    assert_eq!(keeping.events(), Ok(vec![]));

    assert_eq!(
        store(Type::U32, Lie::None).unwrap().events(),
        Err(Error::NoEvents)
    );
}

#[test]
fn a_host_refuses() {
    let host = |_: u32, _: Vec<Value>| Err(Refused);
    let mut store = Store::new(
        component(Type::U32),
        Mirror {
            top: 0,
            lie: Lie::Asks,
        },
        host,
    )
    .unwrap();
    let refused = Refusal {
        kind: ErrorKind::HostRefused,
        place: Place::Nowhere,
        more: 0,
        import: Some(0),
    };
    assert_eq!(
        store.call(0, &[Value::U32(9)]),
        Err(Error::Refused(refused))
    );
}

#[test]
fn lies_are_answered_by_their_cause() {
    let text = || (Type::String, Value::string("text"));
    let told = |lie| {
        let (ty, value) = text();
        refusal(ty, value, lie)
    };
    assert_eq!(told(Lie::Panics), "refused GuestTrap");
    assert_eq!(told(Lie::ManyWords), "refused GuestTrap");
    assert_eq!(told(Lie::Grows), "refused GuestTrap");
    assert_eq!(told(Lie::Short), "refused OutOfMemory");
    assert_eq!(
        told(Lie::BlockPastTheEnd),
        "refused ReallocOutOfBounds 65535"
    );
    let error = store(Type::U32, Lie::NotInstantiated).err().unwrap();
    assert_eq!(error.to_string(), "refused GuestTrap");
}

#[test]
fn a_session_says_why_it_ended() {
    let (told, heard) = std::sync::mpsc::channel();
    let engine = Mirror {
        top: 0,
        lie: Lie::NotInstantiated,
    };
    session(component(Type::U32), engine, NoHost, move |last| {
        told.send(last.unwrap_err().to_string()).unwrap();
        None
    });
    assert_eq!(heard.recv().unwrap(), "refused GuestTrap");
}

#[test]
fn what_makes_no_sense_changes_nothing() {
    let mut store = store(Type::U32, Lie::None).unwrap();
    assert_eq!(
        store.call(0, &[Value::U8(1)]),
        Err(Error::Image(ImageError::NotOfType))
    );
    assert_eq!(store.call(1, &[]), Err(Error::NoExport));
    assert_eq!(store.call_image(1, vec![]), Err(Error::NoExport));
    assert_eq!(store.call_image(0, vec![1, 2, 3]), Err(Error::NoImage(0)));
    assert_eq!(store.call(0, &[Value::U32(1)]), Ok(vec![Value::U32(1)]));
}

#[test]
fn a_session_runs_on_this_thread_and_within_another_one() {
    let thread = std::thread::current().id();
    let host = move |_: u32, params: Vec<Value>| {
        assert_eq!(std::thread::current().id(), thread);
        let mut asked = Some(Do::Call(0, params));
        let (told, heard) = std::sync::mpsc::channel();
        session(
            component(Type::U32),
            Mirror::default(),
            NoHost,
            move |last| {
                if let Ok(Done::Called(values)) = last {
                    told.send(values).unwrap();
                }
                asked.take()
            },
        );
        heard.recv().map_err(|_| Refused)
    };
    let mut asked = vec![Do::LiveHandles, Do::Call(0, vec![Value::U32(5)])];
    let mut wanted = vec![
        Done::LiveHandles(0),
        Done::Called(vec![Value::U32(5)]),
        Done::Begun,
    ];
    session(
        component(Type::U32),
        Mirror {
            top: 0,
            lie: Lie::Asks,
        },
        host,
        move |last| {
            assert_eq!(last, Ok(wanted.pop().unwrap()));
            asked.pop()
        },
    );
}
