//! The two login kinds: what a message says, and writing one.

use crate::foreign;
use crate::refusal::{found, Refusal};
use crate::value::{part, text};
use crate::written;

/// What a login request says.
#[derive(Clone, Copy, Debug, PartialEq, Eq)]
pub struct LoginRequest<'m> {
    /// 0 or 1.
    pub version: u8,
    /// 0 for a hash of 20 bytes, 1 for one of 32. Version 0 has none, and its hash has 20 bytes.
    pub hash_version: Option<u8>,
    /// The service that is asked for.
    pub service: &'m str,
    /// The user's name.
    pub user: &'m str,
    /// The hash of the password.
    pub hash: &'m [u8],
}

/// What a login response says.
#[derive(Clone, Copy, Debug, PartialEq, Eq)]
pub struct LoginResponse<'m> {
    /// 0 or 1.
    pub version: u8,
    /// 0 if the login was carried out.
    pub result: i8,
    /// What follows a result of 0; there is nothing after another.
    pub welcome: Option<Welcome<'m>>,
}

/// What follows the result 0 of a login response.
#[derive(Clone, Copy, Debug, Default, PartialEq, Eq)]
pub struct Welcome<'m> {
    /// The host's number.
    pub host: i32,
    /// The connection's number.
    pub connection: i64,
    /// When the cluster was started.
    pub start: i64,
    /// The address of the leader.
    pub leader: [u8; 4],
    /// The server's build string.
    pub build: &'m str,
}

/// What a login request says.
pub fn login_request(message: &[u8]) -> Result<LoginRequest<'_>, Refusal> {
    let mut n = [0; 9];
    // SAFETY: the pointer and the length are those of a slice, which is only read; the numbers are lent for writing and are nobody else's.
    found(unsafe { foreign::chaloenpik_login_request(message.as_ptr(), message.len(), &mut n) })?;
    Ok(LoginRequest {
        version: n[0] as u8,
        hash_version: (n[1] == 1).then_some(n[2] as u8),
        service: text(message, n[3], n[4])?,
        user: text(message, n[5], n[6])?,
        hash: part(message, n[7], n[8])?,
    })
}

/// What a login response says.
pub fn login_response(message: &[u8]) -> Result<LoginResponse<'_>, Refusal> {
    let mut n = [0; 9];
    // SAFETY: as above.
    found(unsafe { foreign::chaloenpik_login_response(message.as_ptr(), message.len(), &mut n) })?;
    let build = text(message, n[7], n[8])?;
    let leader = (n[5] as u32).to_be_bytes();
    let welcome = Welcome { host: n[2] as i32, connection: n[3] as i64, start: n[4] as i64, leader, build };
    Ok(LoginResponse { version: n[0] as u8, result: n[1] as i8, welcome: (n[6] == 1).then_some(welcome) })
}

/// Writes a login request in front of `out`, and gives the message. Bytes past it are unchanged.
///
/// In version 0 the hash version is ignored; in version 1 it must be there.
///
/// ```
/// use chaloenpik::{login_request, write_login_request, LoginRequest};
///
/// let login = LoginRequest { version: 1, hash_version: Some(0), service: "database", user: "harbour", hash: &[7; 20] };
/// let mut out = [0; 100];
/// let message = write_login_request(&mut out, login)?;
/// assert_eq!(login_request(message)?, login);
/// # Ok::<(), chaloenpik::Refusal>(())
/// ```
pub fn write_login_request<'b>(out: &'b mut [u8], login: LoginRequest<'_>) -> Result<&'b [u8], Refusal> {
    let LoginRequest { version, hash_version, service, user, hash } = login;
    // SAFETY: pointers and lengths are those of slices; the one that is written is lent alone.
    let answer = unsafe {
        foreign::chaloenpik_write_login_request(
            out.as_mut_ptr(),
            out.len(),
            version,
            hash_version.unwrap_or(u8::MAX), // no hash version: refused where the version asks for one
            service.as_ptr(),
            service.len(),
            user.as_ptr(),
            user.len(),
            hash.as_ptr(),
            hash.len(),
        )
    };
    written(out, found(answer)?)
}

/// Writes a login response in front of `out`, and gives the message. Bytes past it are unchanged. With a result other than 0 the rest is
/// ignored.
pub fn write_login_response<'b>(out: &'b mut [u8], version: u8, result: i8, rest: Welcome<'_>) -> Result<&'b [u8], Refusal> {
    // SAFETY: as above.
    let answer = unsafe {
        foreign::chaloenpik_write_login_response(
            out.as_mut_ptr(),
            out.len(),
            version,
            result as u8,
            rest.host as u32,
            rest.connection as u64,
            rest.start as u64,
            u32::from_be_bytes(rest.leader),
            rest.build.as_ptr(),
            rest.build.len(),
        )
    };
    written(out, found(answer)?)
}
