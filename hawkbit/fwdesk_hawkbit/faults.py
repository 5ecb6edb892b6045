"""hawkBit's form of an error, for what is refused here and for what the desk refuses."""

from aiohttp import web

# status, exception and code, as hawkBit tells them
ERRORS = {
    "not found": (404, "EntityNotFoundException", "repo.entitiyNotFound"),
    "exists": (409, "EntityAlreadyExistsException", "repo.entitiyAlreayExists"),
    "locked": (423, "LockedException", "locked"),
    "read only": (403, "EntityReadOnlyException", "entityreadonly"),
    "quota": (403, "AssignmentQuotaExceededException", "quota.tooManyEntries"),
    "size": (403, "FileSizeQuotaExceededException", "quota.fileSizeExceeded"),
    "filter": (400, "RSQLParameterSyntaxException", "rest.param.rsqlParamSyntax"),
    "field": (400, "RSQLParameterUnsupportedFieldException", "rest.param.rsqlInvalidField"),
    "sort": (400, "SortParameterUnsupportedFieldException", "rest.param.invalidField"),
    "body": (400, "MessageNotReadableException", "rest.body.notReadable"),
    "constraint": (400, "ConstraintViolationException", "repo.constraintViolation"),
    "rollout": (400, "RolloutIllegalStateException", "rollout.illegalstate"),
    "cancel": (405, "CancelActionNotAllowedException", "action.notcancelable"),
    "quit": (405, "ForceQuitActionNotAllowedException", "action.notforcequitable"),
    "digest sha256": (
        400,
        "InvalidSHA256HashException",
        "artifact.uploadFailed.checksum.sha256.match",
    ),
    "digest sha1": (400, "InvalidSHA1HashException", "artifact.uploadFailed.checksum.sha1.match"),
    "digest md5": (400, "InvalidMD5HashException", "artifact.uploadFailed.checksum.md5.match"),
    "unsupported": (501, "OperationNotSupportedException", "operation.notSupported"),
    "login": (401, "InsufficientPermissionException", "insufficientpermission"),
    "permission": (403, "InsufficientPermissionException", "insufficientpermission"),
    "desk": (503, "GenericSpServerException", "repo.generic"),
}
# what a refusal of the desk is to hawkBit, by its number
OF_NUMBER = {
    1: "body",
    3: "not found",
    5: "exists",
    6: "locked",
    7: "rollout",
    9: "size",
    10: "quota",
    11: "filter",
    12: "constraint",
    13: "digest sha256",
    14: "constraint",
}
# the others, which are told by their status alone, or as a fault of the desk
BY_STATUS = {2, 4, 8, 15, 16, 17, 18, 19, 20, 21, 22}


class Fault(Exception):
    """What is answered in hawkBit's form; `number` is the desk's, where the desk refused."""

    def __init__(self, kind: str, message: str, number: int = 0) -> None:
        super().__init__(message)
        self.kind, self.number = kind, number

    def answer(self) -> web.Response:
        """The status and the body that hawkBit has for it."""
        status, name, code = ERRORS[self.kind]
        told = {
            "exceptionClass": f"org.eclipse.hawkbit.repository.exception.{name}",
            "errorCode": f"hawkbit.server.error.{code}",
            "message": str(self),
        }
        later = {"Retry-After": "30"} if status == 503 else {}
        return web.json_response(told, status=status, headers=later)
