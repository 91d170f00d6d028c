//! The few functions of GLib's GKeyFile and GDesktopAppInfo that the benchmark asks, declared by hand.

use std::ffi::{c_char, c_int, c_void, CStr};
use std::ptr;

#[repr(C)]
struct RawKeyFile {
    _private: [u8; 0],
}

#[repr(C)]
struct RawAppInfo {
    _private: [u8; 0],
}

type RawError = *mut *mut c_void;

extern "C" {
    fn g_key_file_new() -> *mut RawKeyFile;
    fn g_key_file_free(file: *mut RawKeyFile);
    fn g_key_file_load_from_data(
        file: *mut RawKeyFile,
        data: *const c_char,
        length: usize,
        flags: c_int,
        error: RawError,
    ) -> c_int;
    fn g_key_file_get_value(
        file: *mut RawKeyFile,
        group: *const c_char,
        key: *const c_char,
        error: RawError,
    ) -> *mut c_char;
    fn g_key_file_get_string(
        file: *mut RawKeyFile,
        group: *const c_char,
        key: *const c_char,
        error: RawError,
    ) -> *mut c_char;
    fn g_key_file_get_locale_string(
        file: *mut RawKeyFile,
        group: *const c_char,
        key: *const c_char,
        locale: *const c_char,
        error: RawError,
    ) -> *mut c_char;
    fn g_key_file_set_string(
        file: *mut RawKeyFile,
        group: *const c_char,
        key: *const c_char,
        text: *const c_char,
    );
    fn g_key_file_to_data(
        file: *mut RawKeyFile,
        length: *mut usize,
        error: RawError,
    ) -> *mut c_char;
    fn g_free(memory: *mut c_void);
    fn g_desktop_app_info_new_from_keyfile(file: *mut RawKeyFile) -> *mut RawAppInfo;
    fn g_desktop_app_info_list_actions(info: *mut RawAppInfo) -> *const *const c_char;
    fn g_desktop_app_info_get_action_name(
        info: *mut RawAppInfo,
        action: *const c_char,
    ) -> *mut c_char;
    fn g_object_unref(object: *mut c_void);
}

/// G_KEY_FILE_NONE: of the languages only those of the environment are kept, as GLib reads the file of an application.
const NONE: c_int = 0;

/// G_KEY_FILE_KEEP_TRANSLATIONS: all languages are read, as the library does.
const KEEP_TRANSLATIONS: c_int = 2;

/// A file that GLib has read.
pub struct KeyFile(*mut RawKeyFile);

/// A string that GLib made.
pub struct Made(*mut c_char);

const GROUP: &CStr = c"Desktop Entry";

impl KeyFile {
    /// Reads a file; None if GLib refuses it.
    pub fn load(bytes: &[u8]) -> Option<KeyFile> {
        KeyFile::load_with(KEEP_TRANSLATIONS, bytes)
    }

    fn load_with(flags: c_int, bytes: &[u8]) -> Option<KeyFile> {
        // SAFETY: the bytes are lent for the call; no error is asked for.
        unsafe {
            let file = KeyFile(g_key_file_new());
            let data = bytes.as_ptr().cast();
            let read = g_key_file_load_from_data(file.0, data, bytes.len(), flags, ptr::null_mut());
            (read != 0).then_some(file)
        }
    }

    /// The raw value of a key in Desktop Entry.
    pub fn value(&self, key: &CStr) -> Option<Made> {
        // SAFETY: the file is alive and the names end in zero bytes.
        Made::new(unsafe {
            g_key_file_get_value(self.0, GROUP.as_ptr(), key.as_ptr(), ptr::null_mut())
        })
    }

    /// The value with its escapes read.
    pub fn text(&self, key: &CStr) -> Option<Made> {
        // SAFETY: as above.
        Made::new(unsafe {
            g_key_file_get_string(self.0, GROUP.as_ptr(), key.as_ptr(), ptr::null_mut())
        })
    }

    /// The value that suits the locale best, with its escapes read.
    pub fn chosen(&self, key: &CStr, locale: &CStr) -> Option<Made> {
        // SAFETY: as above.
        Made::new(unsafe {
            g_key_file_get_locale_string(
                self.0,
                GROUP.as_ptr(),
                key.as_ptr(),
                locale.as_ptr(),
                ptr::null_mut(),
            )
        })
    }
}

impl KeyFile {
    /// Sets a key of a group to a text, which GLib escapes.
    pub fn set(&mut self, group: &CStr, key: &CStr, text: &CStr) {
        // SAFETY: the file is alive and the names end in zero bytes.
        unsafe { g_key_file_set_string(self.0, group.as_ptr(), key.as_ptr(), text.as_ptr()) }
    }

    /// The file as it would be written.
    pub fn data(&self) -> Option<Made> {
        // SAFETY: the file is alive; neither length nor error is asked for.
        Made::new(unsafe { g_key_file_to_data(self.0, ptr::null_mut(), ptr::null_mut()) })
    }
}

impl Drop for KeyFile {
    fn drop(&mut self) {
        // SAFETY: GLib made it, and it goes once.
        unsafe { g_key_file_free(self.0) }
    }
}

/// An application that GLib has read, and the file that it looks labels up in.
pub struct AppInfo {
    info: *mut RawAppInfo,
    _file: KeyFile,
}

impl AppInfo {
    /// Reads the file of an application; None if GLib refuses it.
    pub fn load(bytes: &[u8]) -> Option<AppInfo> {
        let file = KeyFile::load_with(NONE, bytes)?;
        // SAFETY: the file is alive, and is kept as long as the application.
        let info = unsafe { g_desktop_app_info_new_from_keyfile(file.0) };
        (!info.is_null()).then(|| AppInfo { info, _file: file })
    }

    /// The identifiers of its actions.
    pub fn actions(&self) -> impl Iterator<Item = &CStr> {
        // SAFETY: GLib's list lives as long as the application and ends in a null pointer, its strings in zero bytes.
        let mut next = unsafe { g_desktop_app_info_list_actions(self.info) };
        std::iter::from_fn(move || unsafe {
            let action = *next;
            next = next.add(usize::from(!action.is_null()));
            (!action.is_null()).then(|| CStr::from_ptr(action))
        })
    }

    /// The label of an action by the locale of the environment.
    pub fn label(&self, action: &CStr) -> Option<Made> {
        // SAFETY: the application is alive and the identifier ends in a zero byte.
        Made::new(unsafe { g_desktop_app_info_get_action_name(self.info, action.as_ptr()) })
    }
}

impl Drop for AppInfo {
    fn drop(&mut self) {
        // SAFETY: GLib made it, and it goes once, before its file.
        unsafe { g_object_unref(self.info.cast()) }
    }
}

impl Made {
    fn new(string: *mut c_char) -> Option<Made> {
        (!string.is_null()).then_some(Made(string))
    }

    pub fn bytes(&self) -> &[u8] {
        // SAFETY: GLib's strings end in a zero byte.
        unsafe { CStr::from_ptr(self.0) }.to_bytes()
    }
}

impl Drop for Made {
    fn drop(&mut self) {
        // SAFETY: GLib made it, and it goes once.
        unsafe { g_free(self.0.cast()) }
    }
}
