//! SpeexDSP's echo canceller, alone or with its preprocessor behind it: what the bench calls of speex_echo.h and speex_preprocess.h.

use std::array::from_fn;
use std::ffi::{c_int, c_void};
use std::hint::black_box;

pub const FRAME: usize = 256;
const RATE: c_int = 16_000;

const SPEEX_ECHO_SET_SAMPLING_RATE: c_int = 24;
const SPEEX_PREPROCESS_SET_ECHO_STATE: c_int = 24;

/// Known to the library alone, as is the other.
#[repr(C)]
struct EchoState([u8; 0]);

#[repr(C)]
struct PreprocessState([u8; 0]);

unsafe extern "C" {
    fn speex_echo_state_init(frame_size: c_int, filter_length: c_int) -> *mut EchoState;
    fn speex_echo_state_destroy(state: *mut EchoState);
    fn speex_echo_ctl(state: *mut EchoState, request: c_int, value: *mut c_void) -> c_int;
    fn speex_echo_cancellation(
        state: *mut EchoState,
        near: *const i16,
        far: *const i16,
        out: *mut i16,
    );
    fn speex_preprocess_state_init(frame_size: c_int, rate: c_int) -> *mut PreprocessState;
    fn speex_preprocess_state_destroy(state: *mut PreprocessState);
    fn speex_preprocess_ctl(
        state: *mut PreprocessState,
        request: c_int,
        value: *mut c_void,
    ) -> c_int;
    fn speex_preprocess_run(state: *mut PreprocessState, frame: *mut i16) -> c_int;
}

pub struct Speex {
    echo: *mut EchoState,
    preprocessor: Option<*mut PreprocessState>,
    out: [i16; FRAME],
}

impl Speex {
    pub fn created(taps: usize, suppress: bool) -> Speex {
        let mut rate = RATE;
        let echo = unsafe { speex_echo_state_init(FRAME as c_int, taps as c_int) };
        let value = (&raw mut rate).cast();
        let refused = unsafe { speex_echo_ctl(echo, SPEEX_ECHO_SET_SAMPLING_RATE, value) };
        assert_eq!(refused, 0, "SpeexDSP does not take the rate");
        Speex {
            echo,
            preprocessor: suppress.then(|| preprocessor(echo)),
            out: [0; FRAME],
        }
    }

    pub fn process(&mut self, near: &[i16; FRAME], far: &[i16; FRAME]) {
        let out = self.out.as_mut_ptr();
        unsafe {
            speex_echo_cancellation(self.echo, near.as_ptr(), far.as_ptr(), out);
            if let Some(preprocessor) = self.preprocessor {
                speex_preprocess_run(preprocessor, out);
            }
        }
        black_box(&self.out);
    }
}

/// Set as it is made, but for the canceller whose residual it suppresses. So it suppresses noise as well: told not to, it would
/// apply no gain at all, and the residual would stay.
fn preprocessor(echo: *mut EchoState) -> *mut PreprocessState {
    unsafe {
        let state = speex_preprocess_state_init(FRAME as c_int, RATE);
        let refused = speex_preprocess_ctl(state, SPEEX_PREPROCESS_SET_ECHO_STATE, echo.cast());
        assert_eq!(refused, 0, "SpeexDSP does not take the canceller");
        state
    }
}

impl Drop for Speex {
    fn drop(&mut self) {
        unsafe {
            if let Some(preprocessor) = self.preprocessor {
                speex_preprocess_state_destroy(preprocessor);
            }
            speex_echo_state_destroy(self.echo);
        }
    }
}

/// Samples of 16 bits, 2^14 for 1.0, of which what is behind the point is cut off. Those below 2 in size stay below 2^15, so that
/// none clips.
pub fn words(samples: &[f32]) -> [i16; FRAME] {
    assert!(samples.iter().all(|x| x.abs() < 2.0));
    from_fn(|i| (16_384.0 * samples[i]) as i16)
}
