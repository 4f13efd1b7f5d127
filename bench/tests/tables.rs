//! Tables in, with their reports and tapes written out.

use bench::{BadTable, Matrix, TableWord, desk, read_table, write_messages};

const TABLE: &str = "\
#,symbol,participant,number,price,size,condition,kind,target
a,AB,N,1,10.00,100,@___,report,
,AB,Q,1,10.1,200,@___,R,

b,AB,Q,1,10.20,500,@___,report,
,AB,Q,2,,,,cancel,1
";

const REPORT: &str = "\
symbol,who,open,open_at,high,high_at,low,low_at,last,last_at,volume,trades
AB,ALL,100000,1,100000,1,100000,1,100000,1,100,1
AB,N,100000,1,100000,1,100000,1,100000,1,100,1
";

const TAPE: &str = "\
tape,refused,kind,participant,number,moment,symbol,target,price,size,condition,open,high,low,last,volume,trades
1,,report,N,1,0,AB,,10.00,100,@___,10.00,10.00,10.00,10.00,100,1
2,,report,Q,1,0,AB,,10.10,200,@___,10.00,10.10,10.00,10.10,300,2
,35 Stale,report,Q,1,0,AB,,10.20,500,@___,10.00,10.10,10.00,10.10,300,2
3,,cancel,Q,2,0,AB,1,,,,10.00,10.00,10.00,10.00,100,1
";

/// What is written of the table.
fn written(word: TableWord, table: &str) -> String {
    let mut text = Vec::new();
    let read = desk(word, Matrix::One, table.as_bytes(), &mut text).unwrap();
    assert_eq!(read, Ok(()));
    String::from_utf8(text).unwrap()
}

#[test]
fn a_table_has_a_report_and_a_tape() {
    for table in [TABLE, &TABLE.replace('\n', "\r\n")] {
        assert_eq!(written(TableWord::Report, table), REPORT);
        assert_eq!(written(TableWord::Least, table), REPORT);
        assert_eq!(written(TableWord::Tape, table), TAPE);
    }
}

#[test]
fn a_bad_table_is_none() {
    let rows = TABLE.lines().count() - 2;
    assert_eq!(read_table(TABLE.as_bytes()).unwrap().len(), rows);
    for (old, new) in [
        ("#,", "remark,"),
        ("price", "size"),
        ("10.1,", "10.00001,"),
        ("10.1,", "10.,"),
        ("10.1,", "0.0000,"),
        (",500", ",100000000"),
        ("@___,R", "@_ _,R"),
        ("AB,N", "ABCDEFGHI,N"),
        ("cancel,1", "cancel,0"),
        ("cancel,1", "cancel,1,"),
        ("N,1,", "N,0,"),
    ] {
        let table = TABLE.replacen(old, new, 1);
        assert_ne!(table, TABLE);
        assert_eq!(read_table(table.as_bytes()), Err(BadTable), "{new}");
    }
}

#[test]
fn a_batchs_input_is_a_table() {
    let mut text = Vec::new();
    let input = b"AB\nN\nN 0026524e00000001000000000209d9c0414220202020202000000000000186a00000006440202020\nno line\n";
    write_messages(input, &mut text);
    let rows = "kind,participant,number,moment,symbol,target,price,size,condition\nreport,N,1,34200000,AB,,10.00,100,@___\n";
    assert_eq!(String::from_utf8(text).unwrap(), rows);
}
