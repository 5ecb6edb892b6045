"""What a device says in hawkBit's words, and the form that docs/API.md gives a report, a number and an attribute."""

import json

import pytest

from fwdesk_hawkbit import words
from fwdesk_hawkbit.faults import Fault


def report(which, execution, finished="none", is_download=False, **more):
    told = {"id": 5, "status": {"execution": execution, "result": {"finished": finished}} | more}
    made = words.feedback(which, told, is_download)["status"]
    return made["execution"], made["result"]["finished"], made["details"]


@pytest.mark.parametrize(
    "execution, finished, wanted",
    [
        ("closed", "success", ("closed", "success", [])),
        ("closed", "failure", ("closed", "failure", [])),
        (
            "closed",
            "none",
            ("closed", "success", []),
        ),  # hawkBit takes what is closed without a failure as done
        ("proceeding", "none", ("proceeding", "none", [])),
        ("proceeding", "success", ("proceeding", "none", [])),
        ("scheduled", "none", ("scheduled", "none", [])),
        ("resumed", "none", ("resumed", "none", [])),
        ("rejected", "failure", ("rejected", "none", [])),
        ("download", "none", ("proceeding", "none", ["download, none"])),
        ("downloaded", "success", ("proceeding", "none", ["downloaded, success"])),
        ("canceled", "success", ("proceeding", "none", ["canceled, success"])),
    ],
)
def test_words_of_a_deployment(execution, finished, wanted):
    assert report("deploymentBase", execution, finished) == wanted


@pytest.mark.parametrize(
    "execution, finished, wanted",
    [
        ("closed", "success", ("closed", "success")),
        ("canceled", "success", ("canceled", "success")),
        ("closed", "none", ("closed", "success")),
        ("closed", "failure", ("rejected", "none")),
        ("rejected", "none", ("rejected", "none")),
        ("proceeding", "none", ("proceeding", "none")),
        ("scheduled", "success", ("scheduled", "none")),
    ],
)
def test_words_of_a_cancel(execution, finished, wanted):
    assert report("cancelAction", execution, finished)[:2] == wanted


def test_that_a_download_alone_ends_when_it_is_downloaded():
    assert report("deploymentBase", "downloaded", is_download=True)[:2] == ("closed", "success")


@pytest.mark.parametrize(
    "told",
    [
        {},
        {"status": 5},
        {"status": {}},
        {"status": {"execution": "flying", "result": {"finished": "none"}}},
        {"status": {"execution": "closed", "result": {"finished": "well"}}},
        {"status": {"execution": ["closed"], "result": {"finished": "none"}}},
        {"status": {"execution": "closed", "result": {"finished": {}}}},
        {"number": 0, "status": {"execution": "proceeding"}},
        {"number": True, "status": {"execution": "proceeding"}},
        {"number": "7", "status": {"execution": "proceeding"}},
        {"number": 4_294_967_296, "status": {"execution": "proceeding"}},
    ],
)
def test_what_is_no_report(told):
    with pytest.raises(Fault) as why:
        words.feedback("deploymentBase", told)
    assert why.value.kind == "body"


def test_that_a_result_may_be_missing_and_a_number_goes_on():
    told = {"number": 4_294_967_295, "status": {"execution": "proceeding"}}
    assert words.feedback("deploymentBase", told)["number"] == 4_294_967_295


def test_that_a_status_code_is_a_line():
    lines = report("deploymentBase", "closed", "failure", details=["no room"], code=507)[2]
    assert lines == ["no room", "Device reported status code: 507"]


def test_that_details_are_whole_within_8_lines_of_256_bytes():
    said = ["x" * 2048]
    assert report("deploymentBase", "closed", "failure", details=said)[2] == ["x" * 256] * 8
    assert report("deploymentBase", "proceeding", details="one line")[2] == ["one line"]


def test_that_what_is_too_long_says_how_many_lines_are_left_out():
    lines = report("deploymentBase", "closed", "failure", details=[str(it) for it in range(20)])[2]
    assert lines == ["(13 lines before these are left out)", *map(str, range(13, 20))]


def test_that_no_letter_is_cut_and_no_control_character_left():
    lines = report(
        "deploymentBase", "proceeding", details=["ä" * 200, "a\tb\nc\x00\x85", "\ud800"]
    )[2]
    assert lines == ["ä" * 128, "ä" * 72, "a b", "c ", "?"]
    assert all(len(it.encode()) <= 256 for it in lines)


def test_attributes_become_words():
    told = {"data": {"HW Version": "2", "mac:eth0": "ff:ff", "": "x", "n": 5, "b": True, "z": None}}
    wanted = {"HW_Version": "2", "mac_eth0": "ff:ff", "_": "x", "n": "5", "b": "true", "z": ""}
    assert words.attributes(told) == ("merge", wanted)


def test_that_attributes_keep_to_the_limits_of_the_desk():
    _, held = words.attributes({"mode": "REPLACE", "data": {"k" * 80: "ä" * 80 + "\n"}})
    assert held == {"k" * 64: "ä" * 64}


@pytest.mark.parametrize(
    "told", [{}, {"data": []}, {"data": {}, "mode": "swap"}, {"data": {}, "mode": 5}]
)
def test_what_are_no_attributes(told):
    with pytest.raises(Fault):
        words.attributes(told)


@pytest.mark.parametrize("body", [b"", b"[]", b"{", b"\xff", b"[" * 100_000])
def test_what_is_no_object(body):
    with pytest.raises(Fault):
        words.read_object(body)


def test_that_a_report_is_json():
    json.dumps(words.feedback("cancelAction", {"status": {"execution": "rejected"}}))
