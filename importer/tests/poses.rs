//! Placements as poses: which texts have them, and that nothing is lost on the way and back.

use importer::placement::{parse, text};
use importer::{refine, score, Broken, Pose, PoseError, RefusalKind, Verdict};

fn pose(site: u32, layout: u32, mirrored: bool) -> Pose {
    Pose {
        site,
        layout,
        mirrored,
    }
}

#[test]
fn each_line_is_a_pose() {
    let poses = [pose(2, 0, true), pose(6, 1, false), pose(1023, 0, false)];
    assert_eq!(
        parse(b"2,0,1\n6,1,0\n1023,0,0\n").as_deref(),
        Ok(&poses[..])
    );
    assert_eq!(text(&poses), b"2,0,1\n6,1,0\n1023,0,0\n");
    assert_eq!(parse(b""), Ok(vec![]));
    assert_eq!(text(&[]), b"");
}

#[test]
fn any_pose_comes_back_from_its_text() {
    let numbers = [0, 1, 9, 10, 9_999, 10_000, 65_536, u32::MAX];
    let mut poses = Vec::new();
    for site in numbers {
        for layout in numbers {
            poses.push(pose(site, layout, poses.len() % 3 == 0));
        }
    }
    assert_eq!(parse(&text(&poses)).as_ref(), Ok(&poses));
    for pose in poses {
        assert_eq!(pose.to_string().parse(), Ok(pose));
    }
}

#[test]
fn a_line_in_another_form_is_told() {
    let lines = [
        "\n",
        "1\n",
        "1,0\n",
        "1,0,0,0\n",
        "1,0,0,\n",
        ",0,0\n",
        "1,,0\n",
        "01,0,0\n",
        "00,0,0\n",
        "+1,0,0\n",
        "-1,0,0\n",
        " 1,0,0\n",
        "1,0,0 \n",
        "1,0,0\r\n",
        "1,0,2\n",
        "1,0,01\n",
        "x,0,0\n",
        "4294967296,0,0\n",
        "1,0,0",
        "\u{e9},0,0\n",
    ];
    for line in lines {
        let first = parse(line.as_bytes());
        assert_eq!(first, Err(PoseError { line: 1 }), "{line:?}");
        let third = parse(format!("2,0,1\n6,0,0\n{line}").as_bytes());
        assert_eq!(third, Err(PoseError { line: 3 }), "{line:?}");
    }
    assert_eq!(parse(b"2,0,1\n\xff\n"), Err(PoseError { line: 2 }));
    let told = PoseError { line: 3 }.to_string();
    assert_eq!(
        told,
        "line 3 is not `site,layout,mirror` with a mark of 0 or 1"
    );
}

#[test]
fn a_line_alone_has_no_line_feed() {
    assert_eq!("2,0,1".parse(), Ok(pose(2, 0, true)));
    for line in ["2,0,1\n", "", "2,0"] {
        assert_eq!(line.parse::<Pose>(), Err(PoseError { line: 1 }));
    }
}

/// Two cells of which the first is mirrored at no shift; `refine`'s worked example.
const WORKED: &[u8] = include_bytes!("../../examples/worked.job");

#[test]
fn a_refined_job_has_poses() {
    let refined = refine(WORKED).expect("the job has a legal placement");
    let poses = [pose(2, 0, true), pose(6, 0, false)];
    assert_eq!(refined.poses().as_deref(), Ok(&poses[..]));
}

#[test]
fn the_refiner_judges_what_poses_say() {
    let scored = |poses: &[Pose]| score(WORKED, &text(poses));
    // Layout 7 is written as it is told; rule 1 knows that there is none.
    let verdict = scored(&[pose(2, 7, false), pose(6, 0, false)]);
    assert_eq!(verdict, Ok(Verdict::Broken(Broken { rule: 1, cell: 1 })));
    // So is a site of five digits, which no placement text has.
    let refused = scored(&[pose(2, 0, false), pose(10_000, 0, false)]).unwrap_err();
    assert_eq!((refused.kind(), refused.line), (RefusalKind::Placement, 2));
    // And a pose too few.
    let refused = scored(&[pose(2, 0, false)]).unwrap_err();
    assert_eq!((refused.kind(), refused.line), (RefusalKind::Placement, 2));
}
