//! The table that owns its words: what it gives out, what it refuses, and how it says so.
use swartabelk::{
    Access, Argument, BinaryOp, Entry, Error, Profile, Reason, Space, Table, Type, UnaryOp, Value,
};

const SCALARS: [Type; 7] = [
    Type::BOOL,
    Type::ABSTRACT_INT,
    Type::ABSTRACT_FLOAT,
    Type::I32,
    Type::U32,
    Type::F32,
    Type::F16,
];

/// One entry of every kind over the scalars, with its spelling.
fn every_kind(table: &mut Table) -> Result<Vec<(Entry, &'static str)>, Error> {
    let to = table.enter(Entry::Atomic { of: Type::U32 })?;
    let (storage, read_write) = (Space::Storage, Access::ReadWrite);
    Ok(vec![
        (Entry::Scalar(Type::F16), "f16"),
        (
            Entry::Vec {
                width: 3,
                of: Type::ABSTRACT_INT,
            },
            "vec3<AbstractInt>",
        ),
        (
            Entry::Mat {
                columns: 4,
                rows: 2,
                of: Type::F32,
            },
            "mat4x2<f32>",
        ),
        (
            Entry::Array {
                of: Type::I32,
                count: u32::MAX,
            },
            "array<i32,4294967295>",
        ),
        (Entry::RuntimeArray { of: to }, "array<atomic<u32>>"),
        (Entry::Atomic { of: Type::I32 }, "atomic<i32>"),
        (
            Entry::Ptr {
                space: storage,
                to,
                access: read_write,
            },
            "ptr<storage,atomic<u32>,read_write>",
        ),
        (
            Entry::Ref {
                space: Space::Handle,
                to: Type::F32,
                access: Access::Write,
            },
            "ref<handle,f32,write>",
        ),
        (
            Entry::FrexpResult {
                fract: Type::ABSTRACT_FLOAT,
            },
            "__frexp_result_abstract",
        ),
        (Entry::ModfResult { fract: Type::F32 }, "__modf_result_f32"),
        (
            Entry::ExchangeResult {
                old_value: Type::U32,
            },
            "__atomic_compare_exchange_result<u32>",
        ),
    ])
}

#[test]
fn an_entry_of_every_kind_is_entered_read_and_spelled() -> Result<(), Error> {
    let mut table = Table::new();
    for (entry, spelling) in every_kind(&mut table)? {
        let ty = table.enter(entry)?;
        assert_eq!(table.entry(ty), entry);
        assert_eq!(table.spell(ty), spelling);
        let mut line = String::from("> ");
        table.spell_to(ty, &mut line).unwrap();
        assert_eq!(line, format!("> {spelling}"));
        assert_eq!(table.enter(entry)?, ty, "once entered it stands");
    }
    let again = Table::from_words(table.words())?;
    assert_eq!(again, table);
    assert_eq!(format!("{again:?}"), format!("{table:?}"));
    Ok(())
}

#[test]
fn a_table_begins_with_the_scalars() {
    for table in [
        Table::new(),
        Table::default(),
        Table::with_entries(0),
        Table::with_entries(1000),
    ] {
        assert_eq!(table.entries(), 7);
        assert!((7..=256).contains(&table.room()));
        assert!(table.types().eq(SCALARS));
        for (number, ty) in (0..).zip(SCALARS) {
            assert_eq!(ty.number(), number);
            assert_eq!(table.type_of(number), Some(ty));
            assert_eq!(table.entry(ty), Entry::Scalar(ty));
        }
        assert_eq!(table.type_of(7), None);
        assert_eq!(table.profile(), Profile::BASE);
    }
    assert_eq!(
        (Table::new().room(), Table::with_entries(0).room()),
        (256, 7)
    );
}

#[test]
fn a_table_grows_by_what_lacks_up_to_256() -> Result<(), Error> {
    let mut table = Table::with_entries(7);
    let two = [
        Entry::Vec {
            width: 2,
            of: Type::F32,
        },
        Entry::Vec {
            width: 3,
            of: Type::F32,
        },
    ];
    for entry in two {
        let error = table.enter(entry).unwrap_err();
        assert_eq!(
            (error.reason(), error.lacking(), error.place()),
            (Reason::NoRoom, 1, None)
        );
        assert!(error
            .to_string()
            .ends_with("for it: 1 entry lacks (refusal 9)"));
        table.grow(error.lacking());
        table.enter(entry)?;
    }
    assert_eq!((table.entries(), table.room()), (9, 9));
    table.grow(usize::MAX);
    assert_eq!(table.room(), 256);
    Ok(())
}

#[test]
fn values_keep_their_marks() -> Result<(), Error> {
    let mut table = Table::new();
    let (x, one) = (Type::F32.running(), Type::ABSTRACT_INT);
    let sum = table.binary(BinaryOp::Plus, x, one)?;
    assert_eq!(sum, x);
    assert!(sum.is_running() && !Value::from(one).is_running());
    assert_eq!(table.unary(UnaryOp::Negate, one)?, one.known());
    assert_eq!(table.call("dpdx", &[Type::F32.known()])?, Some(x));
    assert_eq!(
        table.call_with("bitcast", &[Type::I32], &[x])?,
        Some(Type::I32.running())
    );
    assert_eq!(format!("{sum:?}"), "Value { ty: Type(5), running: true }");
    Ok(())
}

#[test]
fn template_arguments_are_types_and_literals() -> Result<(), Error> {
    let mut table = Table::new();
    let of: Argument<Type> = Type::U32.into();
    let counts = [
        Argument::AbstractInt(4),
        Argument::I32(4),
        Argument::U32(4),
        4_i64.into(),
        4.into(),
        4_u32.into(),
    ];
    for count in counts {
        let array = table.template("array", &[of, count])?;
        assert_eq!(
            table.entry(array),
            Entry::Array {
                of: Type::U32,
                count: 4
            }
        );
    }
    let mut reason = |head, args: &[_]| table.template(head, args).unwrap_err().reason();
    assert_eq!(reason("array", &[of, (-4).into()]), Reason::Count);
    assert_eq!(reason("array", &[of, Argument::Other]), Reason::Count);
    assert_eq!(reason("vec3", &[of, of]), Reason::Template);
    assert_eq!(reason("vec5", &[of]), Reason::Unknown);
    Ok(())
}

#[test]
fn a_type_of_another_table_is_refused() -> Result<(), Error> {
    let mut one = Table::new();
    let vec2 = one.template("vec2", &[Type::F32.into()])?;
    let mut other = Table::new();
    assert_eq!(
        other.unary(UnaryOp::Negate, vec2).unwrap_err().reason(),
        Reason::NoSuchType
    );
    assert_eq!(
        other
            .enter(Entry::Array { of: vec2, count: 1 })
            .unwrap_err()
            .reason(),
        Reason::Template
    );
    assert!(std::panic::catch_unwind(|| Table::new().spell(vec2)).is_err());
    assert!(std::panic::catch_unwind(|| Table::new().entry(vec2)).is_err());
    Ok(())
}

#[test]
fn words_that_are_no_table_are_refused() {
    let sound = Table::new().words().to_vec();
    let more = |words: &[u32]| [&sound[..], words].concat();
    let wrong = [
        vec![],
        sound[..27].to_vec(),
        more(&[0]),
        more(&[7, 9, 0, 5]),
        more(&[5, 0, 0, 0]),
        vec![0; 4 * 257],
    ];
    for words in wrong {
        assert_eq!(
            Table::from_words(&words).unwrap_err().reason(),
            Reason::Unsound,
            "{words:?}"
        );
    }
    assert_eq!(Table::from_words(&sound), Ok(Table::new()));
}

#[test]
fn an_error_says_what_and_where() {
    let mut table = Table::new();
    let single = table
        .binary(BinaryOp::Less, Type::BOOL, Type::BOOL)
        .unwrap_err();
    assert_eq!(
        single.to_string(),
        "no overload takes operands of these types (refusal 8)"
    );
    let sheet = table
        .sheet(&[1, 0, 9, 2, 1, 0, 2, 1, 0, 2, 3, 9])
        .unwrap_err();
    assert_eq!(
        sheet.to_string(),
        "no overload takes operands of these types (refusal 8 at 9)"
    );
    assert_eq!((single.place(), sheet.place()), (None, Some(9)));
    let header = table.sheet(b"fn main").unwrap_err();
    assert_eq!(
        (header.reason(), header.place()),
        (Reason::Framing, Some(0))
    );
    let boxed: Box<dyn std::error::Error> = header.into();
    assert!(boxed.source().is_none());
    assert_eq!(
        boxed.to_string(),
        "the sheet's header or an item is badly framed (refusal 10 at 0)"
    );
}

#[test]
fn an_error_says_why_no_overload_fits() {
    let mut table = Table::new();
    let one = table
        .binary(BinaryOp::Or, Type::BOOL, Type::F32)
        .unwrap_err();
    assert_eq!(one.why(), "(bool, bool): operand 2 is f32\n");
    assert_eq!(
        format!("{one:#}"),
        format!("{one}\n(bool, bool): operand 2 is f32")
    );
    let rule = table.unary(UnaryOp::Indirection, Type::F32).unwrap_err();
    assert_eq!(rule.why(), "operand 1 is f32, wanted is a pointer\n");
    let widths = ["f32", "vec2<f32>", "vec3<f32>", "vec4<f32>"];
    let lines = widths
        .map(|t| format!("({t}): operand 1 is f16\n"))
        .concat();
    assert_eq!(
        table.call("dpdx", &[Type::F16.known()]).unwrap_err().why(),
        lines
    );
    // Of a sheet it is the refused item's: f16 is pushed, and dpdx called.
    let sheet = table
        .sheet(b"\x01\x00\x0a\x02\x01\x06\x06\x04\x01dpdx")
        .unwrap_err();
    assert_eq!((sheet.place(), sheet.why()), (Some(6), &lines[..]));
    // Other refusals have no such text.
    assert_eq!(table.call("dpdx", &[]).unwrap_err().why(), "");
    assert_eq!(
        format!("{:#}", table.sheet(&[]).unwrap_err()),
        "the sheet's header or an item is badly framed (refusal 10 at 0)"
    );
}

/// Both hosts say the same.
#[test]
fn reasons_have_the_words_of_the_header() {
    let header = include_str!("../../../include/swartabelk.h");
    let mut found = 0;
    for number in 0..100 {
        let Some(reason) = Reason::of(number) else {
            continue;
        };
        found += 1;
        assert_eq!(reason as u32, number);
        let name = header.lines().find_map(|line| {
            let (name, rest) = line.trim().split_once(" = ")?;
            let given: String = rest.chars().take_while(char::is_ascii_digit).collect();
            (name.starts_with("SWARTABELK_REFUSED_") && given == number.to_string()).then_some(name)
        });
        let text = format!("case {}: return \"{}\";", name.unwrap(), reason.text());
        assert!(header.contains(&text), "{text}");
    }
    assert_eq!(found, header.matches("case SWARTABELK_REFUSED_").count());
}
