//! A drawing as tinyobjloader reads it: points, triangles with the line and number of their face, materials, and which files were read.
use std::ffi::{c_char, CString};
use std::path::Path;

#[derive(Clone, Copy, Debug)]
pub struct Triangle {
    pub points: [usize; 3],
    /// The material's place, if the face names one that was found.
    pub material: Option<usize>,
    /// The face's number, counted from 1 as it stands in the file.
    pub face: usize,
}

#[derive(Clone, Debug)]
pub struct Material {
    pub name: String,
    pub base: [f64; 3],
    pub emissive: [f64; 3],
    /// 1 for opaque.
    pub dissolve: f64,
}

#[derive(Debug, Default)]
pub struct Drawing {
    pub points: Vec<[f64; 3]>,
    pub triangles: Vec<Triangle>,
    /// The line on which each face stands, face 1 first.
    pub lines: Vec<u64>,
    /// The face and the point's place of every corner of every face, also of points that are not there. Where one is not there, there are no triangles.
    pub corners: Vec<(usize, i64)>,
    pub materials: Vec<Material>,
    /// Material files that were read, by their name in the drawing, and what they held.
    pub files: Vec<(String, Vec<u8>)>,
    /// Material files that the drawing names and that are not there.
    pub missing: Vec<String>,
    pub messages: Vec<String>,
    pub error: Option<String>,
}

enum Handle {}

#[repr(C)]
struct List {
    start: *const u8,
    length: usize,
}

#[repr(C)]
struct RawMaterial {
    name: List,
    base: [f64; 3],
    emissive: [f64; 3],
    dissolve: f64,
}

extern "C" {
    fn plate_obj_read(bytes: *const u8, length: usize, folder: *const c_char) -> *mut Handle;
    fn plate_obj_free(drawing: *mut Handle);
    fn plate_obj_points(drawing: *const Handle) -> List;
    fn plate_obj_triangles(drawing: *const Handle) -> List;
    fn plate_obj_corners(drawing: *const Handle) -> List;
    fn plate_obj_lines(drawing: *const Handle) -> List;
    fn plate_obj_messages(drawing: *const Handle) -> List;
    fn plate_obj_error(drawing: *const Handle) -> List;
    fn plate_obj_materials(drawing: *const Handle) -> usize;
    fn plate_obj_material(drawing: *const Handle, place: usize) -> RawMaterial;
    fn plate_obj_files(drawing: *const Handle) -> usize;
    fn plate_obj_file_name(drawing: *const Handle, place: usize) -> List;
    fn plate_obj_file_bytes(drawing: *const Handle, place: usize) -> List;
    fn plate_obj_missing(drawing: *const Handle) -> usize;
    fn plate_obj_missing_name(drawing: *const Handle, place: usize) -> List;
}

/// The list's entries, copied; an empty list may have no start.
unsafe fn copied<T: Copy>(list: List) -> Vec<T> {
    if list.length == 0 {
        return Vec::new();
    }
    std::slice::from_raw_parts(list.start.cast::<T>(), list.length).to_vec()
}

unsafe fn text(list: List) -> String {
    String::from_utf8_lossy(&copied::<u8>(list)).into_owned()
}

/// Reads a drawing; material files are looked for in the folder.
pub fn read(bytes: &[u8], folder: &Path) -> Drawing {
    use std::os::unix::ffi::OsStrExt;
    let folder = if folder.as_os_str().is_empty() { Path::new(".") } else { folder };
    let Ok(folder) = CString::new(folder.as_os_str().as_bytes()) else {
        return Drawing { error: Some("the folder's name has a zero byte".into()), ..Drawing::default() };
    };
    // the handle lives to the end of this block, and everything is copied out of it
    unsafe {
        let handle = plate_obj_read(bytes.as_ptr(), bytes.len(), folder.as_ptr());
        if handle.is_null() {
            return Drawing { error: Some("no memory for the drawing".into()), ..Drawing::default() };
        }
        let error = text(plate_obj_error(handle));
        let lines_of = |all: String| all.lines().map(|l| l.trim_matches(|c| c == '.' || c == ' ').to_string()).filter(|l| !l.is_empty()).collect();
        let drawing = Drawing {
            points: copied::<f64>(plate_obj_points(handle)).chunks_exact(3).map(|p| [p[0], p[1], p[2]]).collect(),
            triangles: copied::<i64>(plate_obj_triangles(handle))
                .chunks_exact(5)
                .map(|t| Triangle { points: [t[0] as usize, t[1] as usize, t[2] as usize], material: usize::try_from(t[3]).ok(), face: t[4] as usize })
                .collect(),
            lines: copied::<u64>(plate_obj_lines(handle)),
            corners: copied::<i64>(plate_obj_corners(handle)).chunks_exact(2).map(|c| (c[0] as usize, c[1])).collect(),
            materials: (0..plate_obj_materials(handle))
                .map(|i| plate_obj_material(handle, i))
                .map(|m| Material { name: text(m.name), base: m.base, emissive: m.emissive, dissolve: m.dissolve })
                .collect(),
            files: (0..plate_obj_files(handle)).map(|i| (text(plate_obj_file_name(handle, i)), copied(plate_obj_file_bytes(handle, i)))).collect(),
            missing: (0..plate_obj_missing(handle)).map(|i| text(plate_obj_missing_name(handle, i))).collect(),
            messages: lines_of(text(plate_obj_messages(handle))),
            error: (!error.is_empty()).then_some(error),
        };
        plate_obj_free(handle);
        drawing
    }
}
