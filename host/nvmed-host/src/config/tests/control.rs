//! The control socket's line.

use super::*;

#[test]
fn a_control_socket() {
    let c = good(&rest("control /run/c\nextent 0 0 1\nlisten 0 a\n"));
    let wanted = ControlConfig {
        path: "/run/c".into(),
        line: 3,
    };
    assert_eq!(c.control, Some(wanted));
    assert_eq!(good(&rest("extent 0 0 1\nlisten 0 a\n")).control, None);
    let longest = "c".repeat(MOST_SOCKET);
    assert!(good(&rest(&format!("extent 0 0 1\nlisten 0 a\ncontrol {longest}\n")))
        .control
        .is_some());
}

#[test]
fn what_is_wrong_with_it() {
    refused("control\n", "line 1: 'control' has too few words");
    refused("control a b\n", "line 1: 'control' has too many words");
    refused("control \"\"\n", "line 1: the control socket has an empty path");
    refused(
        &format!("control {}\n", "c".repeat(MOST_SOCKET + 1)),
        &format!("line 1: the control socket has a path of more than {MOST_SOCKET} bytes"),
    );
    refused(
        "control a\ncontrol b\n",
        "line 2: the control socket stands in a former line already",
    );
    refused_of_guest(
        "listen 0 a\ncontrol a",
        "line 3: guest 0 listens on this socket already",
    );
    refused_of_guest(
        "control a\nlisten 0 a",
        "line 3: this is the control socket of a former line",
    );
}
