//! Requests and their answers.

use oracle::answer;

fn says(request: &str, expected: &str) {
    assert_eq!(answer(request.as_bytes()), expected, "{request}");
}

const P5: &str = "1923C00500062F11010000616D";

#[test]
fn checksums() {
    says("crc -", "FFFF FFFF FFFF");
    says("crc 00", "E1F0 E1F0 E1F0");
    says("crc FF", "FF00 FF00 FF00");
    says("crc FFFF", "0000 0000 0000");
    says(&format!("verify {P5} 616D"), "1 1 ok ok");
    says(&format!("verify {P5} 0000"), "1 1 ok ok");
    says("verify - ABCD", "0 0 err:4:ABCD err:4:ABCD");
}

#[test]
fn primary_header() {
    says("sphread 1923C0050006", "ok 0,1,1,291,3,5,6 13 0 6435 49157");
    says(
        "sphread FFFFFFFFFFFF00",
        "ok 7,1,1,2047,3,16383,65535 65542 1 8191 65535",
    );
    says("sphread 1923C00500", "err:2:5:6");
    says("sphread -", "err:2:0:6");
    says(
        "sphwrite 0,1,1,291,3,5,6 0000000000000000",
        "ok:6 1923C00500060000",
    );
    says(
        "sphwrite 7,0,0,2047,0,16383,65535 AAAAAAAAAAAA",
        "ok:6 E7FF3FFFFFFF",
    );
    says("sphwrite 0,1,1,291,3,5,6 0102", "err:1:2:6 0102");
    says("sphwrite 0,1,1,291,3,5,6 -", "err:1:0:6 -");
}

#[test]
fn reading() {
    for mode in ["new", "nt", "noverify"] {
        says(
            &format!("read {mode} {P5}"),
            "ok 0,1,1,291,3,5,6 2,15,17,1,0 13 11 0 616D",
        );
        says(&format!("read {mode} {}", &P5[..20]), "err:2:10:11");
        says(&format!("read {mode} 1923C00500042F11010000"), "err:2:9:11");
        says(
            &format!("read {mode} 1923C00500052F1101000000"),
            "err:2:10:11",
        );
    }
    says("read new 1923C00500062F11010000616C", "err:4:616C");
    says("read nt 1923C00500062F11010000616C", "err:4:616C");
    says(
        "read noverify 1923C00500062F11010000616C",
        "ok 0,1,1,291,3,5,6 2,15,17,1,0 13 11 0 616C",
    );
    says(
        "read nocrc 1923C00500042F11010000",
        "ok 0,1,1,291,3,5,4 2,15,17,1,0 11 11 0 -",
    );
    says(
        "read nocrc 0000000000040F11010000",
        "ok 0,0,0,0,0,0,4 2,15,17,1,0 11 11 0 -",
    );
    says("read nocrc 1923C00500032F11010000", "err:2:10:11");
    says("read nocrc 1923C00500052F11010000", "err:2:11:12");
}

#[test]
fn creating() {
    says(
        "create 0,0,0,291,3,5,0 2,15,17,1,0 1 1 0102 - FFFFFFFFFFFFFFFFFFFFFFFFFFFFFFFF",
        "made 0,1,1,291,3,5,8 2,15,17,1,0 1 15 0872 \
         ok:15 1923C00500082F1101000001020872FF \
         ok:15 1923C00500082F1101000001020872FF \
         ok:13 1923C00500082F110100000102FFFFFF",
    );
    says(
        "create 0,1,1,291,3,5,6 2,15,17,1,0 0 1 - - 000000000000000000000000",
        "made 0,1,1,291,3,5,6 2,15,17,1,0 1 13 616D \
         err:1:12:13 000000000000000000000000 \
         err:1:12:13 000000000000000000000000 \
         err:1:12:13 000000000000000000000000",
    );
    says(
        "create 0,0,0,291,3,5,99 2,0,17,1,0 0 0 - ack=15;dlen=7;upd;type=0 \
         0000000000000000000000",
        "made 0,0,1,291,3,5,4 2,15,17,1,0 0 11 BF10 \
         ok:11 0923C00500042F11010000 \
         ok:11 0923C00500042F11010000 \
         ok:11 0923C00500042F11010000",
    );
    // Each edit, alone.
    for (edit, sp, sec) in [
        ("-", "0,1,1,291,3,5,9", "2,15,17,1,0"),
        ("apid=2047", "0,1,1,2047,3,5,9", "2,15,17,1,0"),
        ("scount=16383", "0,1,1,291,3,16383,9", "2,15,17,1,0"),
        ("sflags=1", "0,1,1,291,1,5,9", "2,15,17,1,0"),
        ("ack=6", "0,1,1,291,3,5,9", "2,6,17,1,0"),
        ("source=65535", "0,1,1,291,3,5,9", "2,15,17,1,65535"),
        ("pvn=7", "7,1,1,291,3,5,9", "2,15,17,1,0"),
        ("type=0", "0,0,1,291,3,5,9", "2,15,17,1,0"),
        ("shf=0", "0,1,0,291,3,5,9", "2,15,17,1,0"),
        ("shf=0;shf=1", "0,1,1,291,3,5,9", "2,15,17,1,0"),
        ("dlen=65535", "0,1,1,291,3,5,65535", "2,15,17,1,0"),
        ("service=255", "0,1,1,291,3,5,9", "2,15,255,1,0"),
        ("subtype=255", "0,1,1,291,3,5,9", "2,15,17,255,0"),
        ("version=1;version=2", "0,1,1,291,3,5,9", "2,15,17,1,0"),
        ("upd", "0,1,1,291,3,5,6", "2,15,17,1,0"),
    ] {
        let request = format!("create 0,0,0,291,3,5,9 2,15,17,1,0 0 1 - {edit} -");
        let found = answer(request.as_bytes());
        assert!(
            found.starts_with(&format!("made {sp} {sec} 1 13 ")),
            "{found}"
        );
    }
}

#[test]
fn building() {
    says(
        "build - - -",
        "made 0,1,1,0,3,0,6 2,15,0,0,0 1 13 237B err:1:0:13 - err:1:0:13 - err:1:0:13 -",
    );
    says(
        "build apid=291;scount=5;mtid=17,1 FFFF 00000000000000000000000000",
        "made 0,1,1,291,3,5,6 2,15,17,1,0 1 13 616D \
         ok:13 1923C00500062F11010000616D \
         ok:13 1923C00500062F11010000616D \
         ok:11 1923C00500062F110100000000",
    );
    for (setter, sp, sec, total) in [
        ("pid=0,0,2047", "0,1,1,2047,3,0,6", "2,15,0,0,0", "1 13"),
        ("psc=2,16383", "0,1,1,0,2,16383,6", "2,15,0,0,0", "1 13"),
        ("scount=1", "0,1,1,0,3,1,6", "2,15,0,0,0", "1 13"),
        ("mtid=3,4", "0,1,1,0,3,0,6", "2,15,3,4,0", "1 13"),
        ("service=5", "0,1,1,0,3,0,6", "2,15,5,0,0", "1 13"),
        ("subtype=6", "0,1,1,0,3,0,6", "2,15,0,6,0", "1 13"),
        ("source=7", "0,1,1,0,3,0,6", "2,15,0,0,7", "1 13"),
        ("ack=0", "0,1,1,0,3,0,6", "2,0,0,0,0", "1 13"),
        ("apid=8", "0,1,1,8,3,0,6", "2,15,0,0,0", "1 13"),
        ("cksum=0", "0,1,1,0,3,0,4", "2,15,0,0,0", "0 11"),
        ("data=1", "0,1,1,0,3,0,9", "2,15,0,0,0", "1 16"),
        ("data=1;cksum=0", "0,1,1,0,3,0,7", "2,15,0,0,0", "0 14"),
    ] {
        let found = answer(format!("build {setter} AABBCC -").as_bytes());
        assert!(
            found.starts_with(&format!("made {sp} {sec} {total} ")),
            "{found}"
        );
    }
}

#[test]
fn reserving() {
    let headers = "0,0,0,291,3,5,0 2,15,17,1,0";
    for fin in ["f", "n"] {
        says(
            &format!("reserve {headers} 2 1 0A {fin} EEEEEEEEEEEEEEEEEEEEEEEEEEEEEEEE"),
            "ok 1923C00500082F11010000EEEEEEEEEE 15 2 11 2 \
             ok:15 1923C00500082F110100000AEEE82AEE",
        );
    }
    says(
        &format!("reserve {headers} 2 1 0A c EEEEEEEEEEEEEEEEEEEEEEEEEEEEEE"),
        "ok 1923C00500082F11010000EEEEEEEE 15 2 11 2 ok:13 1923C00500082F110100000AEEEEEE",
    );
    for fin in ["f", "n", "c"] {
        says(
            &format!("reserve {headers} 0 0 - {fin} EEEEEEEEEEEEEEEEEEEEEE"),
            "ok 1923C00500042F11010000 11 0 11 0 ok:11 1923C00500042F11010000",
        );
    }
    says(&format!("reserve {headers} 0 1 - f 00"), "err:1:1:13 00");
    says(
        &format!("reserve {headers} 18446744073709551602 1 - f -"),
        "err:1:0:18446744073709551615 -",
    );
}

#[test]
fn comparing() {
    let creator = "0,0,0,291,3,5,0 2,15,17,1,0 1 1";
    says(&format!("cmprc new {P5} {creator} - -"), "1 1");
    says(&format!("cmprc nt {P5} {creator} - service=18"), "0 0");
    says(&format!("cmprc nocrc {P5} {creator} 616D -"), "0 0");
    says(&format!("cmprc nocrc {P5} {creator} 616D dlen=6"), "1 1");
    says(&format!("cmprc new {P5} {creator} - version=1"), "0 0");
    says(
        &format!("cmprc nt 1923C00500062F11010000616C {creator} - -"),
        "err:4:616C",
    );
    says(&format!("cmprr new {P5} nocrc {P5}FF"), "1 1");
    says(
        &format!("cmprr noverify 1923C00500062F11010000616C nocrc {P5}"),
        "0 0",
    );
    says(
        &format!("cmprr new 1923C00500062F11010000616C nocrc {P5}"),
        "err:4:616C ok",
    );
    says("cmprr nt - new -", "err:2:0:11 err:2:0:11");
}

#[test]
fn the_small_ones() {
    says(
        "simple 291 17 1",
        "0,0,0,291,3,0,0 made 0,1,1,291,3,0,6 2,15,17,1,0 1 13 29D3 \
         ok:13 1923C00000062F1101000029D3 \
         ok:13 1923C00000062F1101000029D3 \
         ok:11 1923C00000062F110100000000",
    );
    says("ack 0", "0 0 0 0");
    says("ack 9", "1 0 0 1");
    says("ack 00000000000000000015", "1 1 1 1");
    says(
        "consts",
        "ALL=15 HEADER_LEN=5 LENGTH=6 MIN=11 DEFAULT=0 MAX_APID=2047 MAX_SEQ_COUNT=16383",
    );
}

/// The largest packet, whose length the wrap of a release build makes right.
#[test]
fn the_largest_packet() {
    let data = "00".repeat(65_529);
    let found = answer(format!("build data=1 {data} -").as_bytes());
    assert!(found.starts_with("made 0,1,1,0,3,0,65535 2,15,0,0,0 1 65542 "));
    assert!(found.ends_with(" err:1:0:65542 - err:1:0:65542 - err:1:0:65542 -"));
}

#[test]
fn panics() {
    for request in [
        "sphwrite 8,1,1,291,3,5,6 -",
        "sphwrite 0,1,1,2048,3,5,6 -",
        "sphwrite 0,1,1,291,3,16384,6 -",
        "create 0,0,0,65535,3,5,0 2,15,17,1,0 1 1 - - -",
        "create 0,0,0,291,3,5,0 2,16,17,1,0 1 1 - - -",
        "create 0,0,0,291,3,5,0 1,15,17,1,0 1 1 - - -",
        "create 0,0,0,291,3,5,0 2,15,17,1,0 1 1 - apid=2048;apid=1 -",
        "build psc=3,16384 - -",
        "reserve 0,0,0,291,3,5,0 0,15,17,1,0 0 1 - f 00000000000000000000000000",
        "reserve 0,0,0,291,3,5,0 2,15,17,1,0 18446744073709551615 1 - f 00000000000000000000000000",
        "simple 2048 17 1",
        "ack 16",
        "ack 255",
    ] {
        says(request, "panic");
    }
}

#[test]
fn no_requests() {
    for line in [
        "",
        " ",
        "crc",
        "crc ",
        " crc -",
        "crc - ",
        "crc  -",
        "crc - -",
        "CRC -",
        "crc -\r",
        "crc\t-",
        "crc 0",
        "crc ff",
        "crc 0x00",
        "crc -00",
        "verify - 12",
        "verify - 12345",
        "verify - abcd",
        "verify - -",
        "read - 00",
        "read New 00",
        "sphwrite 0,1,1,291,3,5 -",
        "sphwrite 0,1,1,291,3,5,6,7 -",
        "sphwrite 0,2,1,291,3,5,6 -",
        "sphwrite 0,01,1,291,3,5,6 -",
        "sphwrite 0,1,1,291,4,5,6 -",
        "sphwrite 0,1,1,291,3,5,65536 -",
        "sphwrite 0,1,1,65536,3,5,6 -",
        "sphwrite 256,1,1,291,3,5,6 -",
        "sphwrite ,1,1,291,3,5,6 -",
        "sphwrite +0,1,1,291,3,5,6 -",
        "create 0,0,0,291,3,5,0 3,15,17,1,0 1 1 - - -",
        "create 0,0,0,291,3,5,0 2,15,17,1 1 1 - - -",
        "create 0,0,0,291,3,5,0 2,256,17,1,0 1 1 - - -",
        "create 0,0,0,291,3,5,0 2,15,17,1,0 2 1 - - -",
        "create 0,0,0,291,3,5,0 2,15,17,1,0 1 1 - apid=1; -",
        "create 0,0,0,291,3,5,0 2,15,17,1,0 1 1 - ;apid=1 -",
        "create 0,0,0,291,3,5,0 2,15,17,1,0 1 1 - apid=1;;upd -",
        "create 0,0,0,291,3,5,0 2,15,17,1,0 1 1 - apid= -",
        "create 0,0,0,291,3,5,0 2,15,17,1,0 1 1 - apid -",
        "create 0,0,0,291,3,5,0 2,15,17,1,0 1 1 - upd= -",
        "create 0,0,0,291,3,5,0 2,15,17,1,0 1 1 - upd=1 -",
        "create 0,0,0,291,3,5,0 2,15,17,1,0 1 1 - -;upd -",
        "create 0,0,0,291,3,5,0 2,15,17,1,0 1 1 - cksum=1 -",
        // A bad field wins over a panic.
        "create 9,0,0,9999,3,5,0 2,15,17,1,0 1 1 - - 0",
        "build data=0 - -",
        "build data - -",
        "build dlen=1 - -",
        "build pid=1,1 - -",
        "build psc=3,1,1 - -",
        "reserve 0,0,0,291,3,5,0 2,15,17,1,0 1 1 0A0B f 00",
        "reserve 0,0,0,291,3,5,0 2,15,17,1,0 1 1 - x 00",
        "reserve 0,0,0,291,3,5,0 2,15,17,1,0 18446744073709551616 1 - f 00",
        "simple 65536 17 1",
        "simple 291 256 1",
        "ack 256",
        "ack -1",
        "ack 000000000000000000009",
        "consts ",
        "strict 1923C00500062F11010000616D",
        "split -",
    ] {
        says(line, "bad-request");
    }
}
