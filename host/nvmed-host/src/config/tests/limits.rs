//! Lines of limits.

use super::*;

#[test]
fn limits_of_guests() {
    let c = good(&rest(
        "extent 0 0 1\nlisten 0 a\nlimit 0 iops 1000\nlimit 0 bytes 10M\n",
    ));
    let wanted = Limit {
        iops: Some(1000),
        bytes: Some(10 << 20),
    };
    assert_eq!(c.guests[0].limit, wanted);
    let c = good(&rest("extent 0 0 1\nlisten 0 a\nlimit 0 bytes 131072\n"));
    let wanted = Limit {
        iops: None,
        bytes: Some(131_072),
    };
    assert_eq!(c.guests[0].limit, wanted);
    assert_eq!(
        good(&rest("extent 0 0 1\nlisten 0 a\n")).guests[0].limit,
        Limit::default()
    );
}

#[test]
fn what_is_wrong_with_a_limit() {
    refused_of_guest("limit 1 iops 7", "line 2: guest 1 has no line 'guest' before this one");
    refused_of_guest("limit 0 iops", "line 2: 'limit' has too few words");
    refused_of_guest("limit 0 iops 1 1", "line 2: 'limit' has too many words");
    refused_of_guest(
        "limit 0 speed 1",
        "line 2: the limit is neither of iops nor of bytes: speed",
    );
    refused_of_guest(
        "limit 0 iops 0",
        "line 2: the limit of commands is 0, not in 1 to 10000000",
    );
    refused_of_guest(
        "limit 0 iops 10000001",
        "line 2: the limit of commands is 10000001, not in 1 to 10000000",
    );
    refused_of_guest(
        "limit 0 iops 1\nlimit 0 iops 1",
        "line 3: the guest's limit of commands stands in a former line already",
    );
    refused_of_guest(
        "limit 0 bytes 128K\nlimit 0 bytes 128K",
        "line 3: the guest's limit of bytes stands in a former line already",
    );
    refused_of_guest(
        "limit 0 bytes 124K",
        "line 2: the limit of bytes is 126976, and a command may have 131072",
    );
    refused_of_guest(
        "limit 0 bytes 1025G",
        "line 2: the limit of bytes is 1025G, more than 1099511627776 bytes",
    );
    refused_of_guest(
        "limit 0 bytes 1.5M",
        "line 2: the limit of bytes is no size, such as 512M: 1.5M",
    );
}
